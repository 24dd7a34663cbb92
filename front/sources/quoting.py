"""Parts of a source as they stand in messages."""


def excerpt(text):
    """The front of a text as it stands in a message."""
    text = "".join(character if " " <= character <= "~" else "?" for character in text)
    return text if len(text) <= 40 else f"{text[:37]}..."
