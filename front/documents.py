"""Answers on files as a JSON document, and as a SARIF log."""

import json
from urllib.parse import quote

from front import VERSION, messages
from front.files import Kind
from front.judging import ACCEPTED, NOT_JUDGED, VIOLATED
from front.messages import Severity
from front.rules import RULES

# ---- JSON ------------------------------------------------------------------------------------------------

class Json:
    """The answers as one JSON document: `files` in their order, and the counts."""

    head, first, between = '{"files": [', "\n", ",\n"

    @staticmethod
    def rows(answer):
        return [json.dumps(file_row(answer))]

    @staticmethod
    def tail(counts):
        numbers = {"accepted": counts.verdicts[ACCEPTED], "violated": counts.verdicts[VIOLATED],
                   "not_judged": counts.verdicts[NOT_JUDGED], "known": counts.known, "reasons": counts.reasons}
        return f"\n],\n{json.dumps(numbers)[1:]}\n"


def file_row(answer):
    row = {"file": answer.file.label, "error": answer.file.fault}
    if answer.file.kind in (Kind.TEXT, Kind.IMAGE):
        return {**row, "verdict": answer.word or "refused", "findings": [
            {"severity": finding.severity.value, "place": str(finding.source or finding.origin), "text": finding.text}
            for finding in answer.findings]}
    return {**row, "functions": [function_row(answer, verdict) for verdict in answer.verdicts]}


def said_source(source):
    return str(source) if source else None


def function_row(answer, verdict):
    function, texts = verdict.function, messages.Texts(verdict, answer.further)

    def slot(place):
        offset = function.offset(place[0])
        return {"offset": offset, "slot": place[1], "text": None if place[0] == function.count else texts.text(place),
                "source": said_source(answer.lines.get((function.section.index, offset, place[1])))}

    def pair(violation):
        return {"rule": violation.rule, "resource": violation.resource, "first": slot(violation.first),
                "second": slot(violation.second), "only_by": [slot(place) for place, _ in verdict.ways.get(violation, ())]}

    return {
        "section": function.section.name, "offset": function.start, "size": function.size, "name": function.name,
        "names": function.names, "verdict": verdict.word, "violation_count": verdict.total,
        "violations": [pair(violation) for violation in verdict.violations], "excused": [pair(row) for row in verdict.excused],
        "reasons": [why.said for why in verdict.faults],
        "unlisted": [{**slot((unlisted.bundle, unlisted.slot or 0)), "why": unlisted.why} if unlisted.slot is not None else
                     {"offset": function.offset(unlisted.bundle), "slot": None, "text": None, "source": None,
                      "why": unlisted.why} for unlisted in verdict.unlisted],
        "stood_in": [{"offset": function.offset(index), "slot": at, "mnemonic": row.mnemonic}
                     for (index, at), row in sorted(verdict.stood_in.items())],
        "not_looked_at": list(dict.fromkeys(verdict.unlooked)),
        "bundles": function.count, "on_no_walk": [function.offset(index) for index in verdict.off_walks],
        "falls_out": verdict.falls_out,
        "entries": [{"offset": function.offset(index), "why": why} for index, why in sorted(function.entries.items())]}


# ---- SARIF -----------------------------------------------------------------------------------------------

OTHER_RULES = {messages.UNJUDGED: "a function can't be judged", "refused": "a text, an image or a source is none"}
LEVELS = {Severity.ERROR: "error", Severity.WARNING: "warning", Severity.NOTE: "note"}


DRIVER = {"name": "ia64", "version": VERSION,
          "rules": [{"id": name, "shortDescription": {"text": text}} for name, text in
                    {**{name: rule.meaning for name, rule in RULES.items()}, **OTHER_RULES}.items()]}


class Sarif:
    """The answers as a SARIF log, version 2.1.0, of one run."""

    head = ('{"$schema": "https://json.schemastore.org/sarif-2.1.0.json", "version": "2.1.0", "runs": [{"tool": '
            f'{json.dumps({"driver": DRIVER})}, "results": [')
    first, between = "\n", ",\n"

    @staticmethod
    def rows(answer):
        return [json.dumps(result(answer.file, finding)) for finding in answer.findings]

    @staticmethod
    def tail(counts):
        unread = [{"level": "error", "message": {"text": text}} for text in counts.faults]
        call = {"executionSuccessful": not unread, "toolExecutionNotifications": unread}
        return f'\n], "invocations": [{json.dumps(call)}]}}]}}\n'


WRITERS = {"json": Json, "sarif": Sarif}


def result(file, finding):
    """A finding as a result, with the place in its source, or the file and the place in it."""
    source = finding.source
    location = {"physicalLocation": {"artifactLocation": {"uri": quote(source.path if source else file.path)}}}
    if source:
        column = {"startColumn": source.column} if source.column else {}
        location["physicalLocation"]["region"] = {"startLine": source.line, **column}
    name = " ".join(name for name in (finding.origin, finding.function) if name)
    if name:
        location["logicalLocations"] = [{"fullyQualifiedName": name}]
    row = {"level": LEVELS[finding.severity], "message": {"text": finding.text}, "locations": [location]}
    return {"ruleId": finding.rule, **row} if finding.rule else row
