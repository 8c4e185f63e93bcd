"use strict";
(function () {
  // The page is whole without this: here the run is walked through, and what belongs together is tied.
  var data = JSON.parse(document.getElementById("scene").textContent);
  var stepper = document.getElementById("stepper");
  var slider = stepper.querySelector("input");
  var told = stepper.querySelector("output");
  var last = data.moves.length;
  var every = function (query, act) { Array.prototype.forEach.call(document.querySelectorAll(query), act); };
  var numbers = Object.create(null);
  data.parties.forEach(function (party, number) { numbers[party.name] = number; });

  // A chip has its sign to the right of it.
  every(".chip", function (chip) {
    var rect = chip.querySelector("rect");
    var sign = document.createElementNS(chip.namespaceURI, "text");
    sign.setAttribute("class", "sign");
    sign.setAttribute("x", Number(rect.getAttribute("x")) + Number(rect.getAttribute("width")) + 6);
    sign.setAttribute("y", Number(rect.getAttribute("y")) + 17);
    chip.appendChild(sign);
  });

  // What the move with this number does, counted from 1.
  function happening(number) {
    var move = data.moves[number - 1];
    var party = numbers[move.party];
    return { key: party + "-" + move.event, party: move.party, event: data.parties[party].events[move.event] };
  }

  function sentence(number) {
    if (number === 0) { return "Before the first of " + last + " moves."; }
    var now = happening(number);
    var place = now.event.line === null ? "step " + now.event.step : "line " + now.event.line;
    return "Move " + number + " of " + last + ", " + place + ": " + now.party + ": " + now.event.kind + " " + now.event.text;
  }

  var at = last;
  function show(number) {
    at = Math.max(0, Math.min(last, number));
    var now = at === 0 ? { key: "", event: { step: null } } : happening(at);
    every("[data-move]", function (element) {
      var done = at >= Number(element.getAttribute("data-move"));
      var current = element.getAttribute("data-event") === now.key;
      element.classList.toggle("done", done);
      element.classList.toggle("todo", !done);
      element.classList.toggle("now", current);
      if (current) { element.setAttribute("aria-current", "step"); } else { element.removeAttribute("aria-current"); }
      var sign = element.querySelector(".sign");
      if (sign) { sign.textContent = current ? "\u25c0" : done ? "\u2713" : ""; }
    });
    every(".source [data-step]", function (line) {
      line.classList.toggle("now", line.getAttribute("data-step") === String(now.event.step));
    });
    slider.value = at;
    slider.setAttribute("aria-valuetext", sentence(at));
    told.textContent = sentence(at);
  }

  // The address says which move is shown, and is kept.
  function go(number) {
    show(number);
    var address = "#move=" + at;
    try { history.replaceState(null, "", address); } catch (error) { location.hash = address; }
  }

  // Who walks through the run wants to see where it is; who points at something sees that already.
  function walk(number) {
    go(number);
    var chip = document.querySelector(".chip.now");
    if (chip) { chip.scrollIntoView({ block: "nearest", inline: "nearest" }); }
  }

  function asked() {
    var found = /^#move=(\d{1,6})$/.exec(location.hash);
    return found ? Number(found[1]) : last;
  }

  slider.max = last;
  slider.addEventListener("input", function () { walk(Number(slider.value)); });
  stepper.addEventListener("submit", function (event) { event.preventDefault(); });
  every("#stepper button", function (button) {
    button.addEventListener("click", function () {
      var by = button.getAttribute("data-by");
      walk(by === "first" ? 0 : by === "last" ? last : at + Number(by));
    });
  });
  document.addEventListener("keydown", function (event) {
    var by = { ArrowRight: 1, ArrowLeft: -1 }[event.key];
    var other = event.altKey || event.ctrlKey || event.metaKey || event.shiftKey || event.target === slider;
    if (!by || other) { return; }
    event.preventDefault();
    walk(at + by);
  });
  window.addEventListener("hashchange", function () { show(asked()); });

  // A chip, its line of the program and its line of the source are tied; a line of the source ties all of its step.
  function tie(event) {
    every(".tied", function (element) { element.classList.remove("tied"); });
    var leaves = event.type === "mouseout" || event.type === "focusout";
    var found = event.target.closest ? event.target.closest("[data-event], [data-step]") : null;
    if (leaves || !found) { return; }
    var own = found.getAttribute("data-event");
    var step = found.getAttribute("data-step");
    var query = own === null ? "[data-step='" + step + "']" : "[data-event='" + own + "'], .source [data-step='" + step + "']";
    every(query, function (element) { element.classList.add("tied"); });
  }
  ["mouseover", "mouseout", "focusin", "focusout"].forEach(function (name) { document.addEventListener(name, tie); });
  every(".chip, .program li, .source [data-step]", function (element) { element.setAttribute("tabindex", "0"); });
  every(".chip, .program li", function (element) {
    var here = function () { go(Number(element.getAttribute("data-move"))); };
    element.addEventListener("click", here);
    element.addEventListener("keydown", function (event) { if (event.key === "Enter") { here(); } });
  });

  stepper.hidden = false;
  show(asked());
})();
