// Begins a page that `ia64 draw` makes: slots are told in its panel, and where it has a run, that can be stepped through.
(function () {
  "use strict";

  const data = document.getElementById("run");
  ia64.slots.attach(document.getElementById("panel"));
  if (data) {
    const { prefix, trace, rows } = JSON.parse(data.textContent), run = ia64.steps.of_trace(trace, { rows }, true);
    ia64.stepping.attach(document.getElementById("stepping"), document.querySelector("figure"), run, { prefix });
  }
}());
