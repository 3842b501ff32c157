"use strict";
(function () {
  function all(root, what) { return Array.prototype.slice.call(root.querySelectorAll(what)); }
  function numbers(text) { return (text || "").split(" ").filter(Boolean).map(Number); }

  // Tables: the button of a head sorts by its column, numbers by their value; a second press turns the order.
  function valueOf(row, column) {
    var cell = row.cells[column];
    if (cell.dataset.value !== undefined) return Number(cell.dataset.value);
    var text = cell.textContent, number = Number(text.replace(/,/g, ""));
    return text !== "" && !isNaN(number) ? number : text;
  }
  function sortBy(table, column, head) {
    var down = head.getAttribute("aria-sort") !== "descending";
    var body = table.tBodies[0], rows = Array.prototype.slice.call(body.rows);
    rows = rows.map(function (row) { return [valueOf(row, column), row]; });
    rows.sort(function (a, b) {
      var x = a[0], y = b[0];
      var order = typeof x === "number" && typeof y === "number" ? x - y : String(x).localeCompare(String(y), undefined, { numeric: true });
      return down ? -order : order;
    });
    rows.forEach(function (row) { body.appendChild(row[1]); });
    all(table, "thead th").forEach(function (other) { other.removeAttribute("aria-sort"); });
    head.setAttribute("aria-sort", down ? "descending" : "ascending");
  }
  all(document, "table.sortable").forEach(function (table) {
    all(table, "thead th").forEach(function (head, column) {
      var button = document.createElement("button");
      button.type = "button";
      button.textContent = head.textContent;
      button.title = "Sort by " + head.textContent;
      head.textContent = "";
      head.appendChild(button);
      button.addEventListener("click", function () { sortBy(table, column, head); });
    });
  });

  // A link to a place within what is folded opens it.
  function openUp(target) {
    for (var at = target; at; at = at.parentElement) if (at.tagName === "DETAILS") at.open = true;
    if (target && target.tagName === "LI" && target.firstChild.tagName === "DETAILS") target.firstChild.open = true;
    if (target) target.scrollIntoView({ block: "center" });
  }
  function openTarget() { openUp(location.hash.length > 1 && document.getElementById(decodeURIComponent(location.hash.slice(1)))); }
  window.addEventListener("hashchange", openTarget);
  openTarget();
  window.addEventListener("beforeprint", function () { all(document, "details.files,details.alike").forEach(function (one) { one.open = true; }); });

  // Trees: a domain is chosen, and its devices and edges are marked; a device is found by a part of its name.
  var STATES = ["failed", "moves", "cut", "silent", "acts"], EDGES = ["failed", "taken", "left"];
  function ranged(text) {
    var found = new Set();
    (text || "").split(" ").filter(Boolean).forEach(function (run) {
      var ends = run.split("-").map(Number);
      for (var number = ends[0]; number <= ends[ends.length - 1]; number++) found.add(number);
    });
    return found;
  }
  // The marks of a device: in the picture, and its row in the list.
  var MARKS = "[data-device],.rows li[id]";
  function deviceOf(mark) { return Number(mark.dataset.device || mark.id.split("-")[2]); }
  function some(numbers, others) { return Array.from(numbers).some(function (number) { return others.has(number); }); }
  function show(section, said) {
    var states = {}, links = ranged(said && said[2]);
    STATES.forEach(function (state) { states[state] = ranged(said && said[1][state]); });
    section.querySelector(".effect").textContent = said ? said[0] : "";
    all(section, MARKS).forEach(function (mark) {
      var device = deviceOf(mark);
      STATES.forEach(function (state) { mark.classList.toggle(state, states[state].has(device)); });
    });
    all(section, "path.edge").forEach(function (edge) {
      EDGES.forEach(function (state) { edge.classList.remove(state); });
      if (!said) return;
      var devices = Array.from(ranged(edge.dataset.devices));
      var moving = devices.filter(function (device) { return states.moves.has(device); }).length;
      if (some(ranged(edge.dataset.links), links) || some(ranged(edge.dataset.parents), states.failed)) edge.classList.add("failed");
      if (moving && edge.classList.contains("backup")) edge.classList.add("taken");
      else if (moving === devices.length) edge.classList.add("left");
    });
  }
  function dimOthers(section, device) {
    all(section, "path.edge").forEach(function (edge) {
      var near = device === null || ranged(edge.dataset.parents).has(device) || ranged(edge.dataset.devices).has(device);
      edge.classList.toggle("dim", !near);
    });
  }
  all(document, "section.plan").forEach(function (section) {
    var effects = JSON.parse(section.querySelector("script.effects").textContent);
    var choice = section.querySelector("select.domains"), find = section.querySelector("input.find"), found = section.querySelector("output.found");
    var rows = all(section, ".rows li[id]"), hits = [], at = -1;
    function nameOf(row) { return row.querySelector("b").textContent; }
    function rowOf(mark) { return document.getElementById(section.querySelector("h3").id + "-" + deviceOf(mark)); }
    function seek(wanted) {
      hits = wanted ? rows.filter(function (row) { return nameOf(row).toLowerCase().indexOf(wanted) >= 0; }) : [];
      hits.sort(function (a, b) { return (nameOf(b).toLowerCase() === wanted) - (nameOf(a).toLowerCase() === wanted); });
      at = -1;
      var devices = new Set(hits.map(deviceOf));
      all(section, MARKS).forEach(function (mark) { mark.classList.toggle("found", devices.has(deviceOf(mark))); });
      found.textContent = wanted ? hits.length + (hits.length === 1 ? " device" : " devices") + (hits.length ? ": Enter goes to its row" : "") : "";
    }
    section.querySelector(".chooser").hidden = false;
    choice.addEventListener("change", function () { show(section, choice.value === "" ? null : effects[Number(choice.value)]); });
    find.addEventListener("input", function () { seek(find.value.trim().toLowerCase()); });
    find.addEventListener("keydown", function (event) {
      if (event.key !== "Enter" || !hits.length) return;
      at = (at + (event.shiftKey ? hits.length - 1 : 1)) % hits.length;
      found.textContent = nameOf(hits[at]) + ", " + (at + 1) + " of " + hits.length;
      openUp(hits[at]);
    });
    var picture = section.querySelector("svg.tree");
    picture.addEventListener("mouseover", function (event) {
      var mark = event.target.closest("[data-device]");
      if (mark && mark.tagName === "rect" && !mark.firstChild) {
        var title = document.createElementNS(picture.namespaceURI, "title"), row = rowOf(mark);
        title.textContent = (row.querySelector("summary") || row).textContent;
        mark.appendChild(title);
      }
      dimOthers(section, mark ? Number(mark.dataset.device) : null);
    });
    picture.addEventListener("mouseleave", function () { dimOthers(section, null); });
    picture.addEventListener("click", function (event) {
      var mark = event.target.closest("[data-device]");
      if (!mark || mark.tagName !== "rect") return;
      event.preventDefault();
      openUp(rowOf(mark));
    });
  });

  // Replay: zoom, a cursor over all panels, and lines that are lifted out.
  var UNITS = [[1e12, "s"], [1e9, "ms"], [1e6, "us"], [1e3, "ns"], [1, "ps"]];
  function unitOf(value) {
    for (var i = 0; i < UNITS.length; i++) if (Math.abs(value) >= UNITS[i][0]) return UNITS[i];
    return UNITS[UNITS.length - 1];
  }
  function inUnit(value, unit, digits) {
    return value === 0 ? "0" : String(Number((value / unit[0]).toPrecision(digits))) + " " + unit[1];
  }
  all(document, "section.replay").forEach(function (section) {
    var panels = section.querySelector(".panels");
    if (!panels) return;
    var first = Number(panels.dataset.first), span = Number(panels.dataset.last) - first;
    var data = JSON.parse(section.querySelector("script.lines-data").textContent);
    var controls = section.querySelector(".controls"), shown = section.querySelector("output.shown");
    var cursor = section.querySelector(".cursor"), over = document.createElement("div");
    var from = 0, zoom = 1, at = null;
    // One unit of times, and one of eps.
    var timeUnit = unitOf(first + span), epsUnit = unitOf(Math.max.apply(null, [1].concat(data.lines.map(function (line) {
      return Math.max.apply(null, line.eps);
    }))));
    function epsText(value) { return inUnit(value, epsUnit, 4); }
    over.className = "at";
    panels.appendChild(over);
    over.appendChild(cursor);
    controls.hidden = false;

    function ticks() {
      var size = timeUnit[0], name = timeUnit[1];
      var low = (first + from * span) / size, high = (first + (from + 1 / zoom) * span) / size;
      var rough = (high - low) / Math.max(2, Math.min(8, panels.clientWidth / 130)), step = Math.pow(10, Math.floor(Math.log10(rough)));
      [1, 2, 5, 10].some(function (factor) { if (step * factor >= rough) { step *= factor; return true; } return false; });
      var places = [];
      for (var i = Math.ceil(low / step); i * step <= high && places.length < 40; i++) places.push(i * step);
      all(panels, ".ticks").forEach(function (axis) {
        axis.textContent = "";
        places.forEach(function (place) {
          var tick = document.createElement("span");
          var part = (place * size - first) / span;
          tick.style.setProperty("--x", part);
          tick.className = (part - from) * zoom > 1 - 60 / axis.clientWidth ? "end" : "";
          tick.textContent = place === 0 ? "0" : Number(place.toPrecision(12)) + " " + name;
          axis.appendChild(tick);
        });
      });
    }
    // Between two of its events the eps of a device grows evenly; before its first and behind its last it is not known.
    function epsAt(line, place) {
      if (place < 0 || place >= line.eps.length) return "unknown";
      if (line.eps[place] !== null) return epsText(line.eps[place]);
      var before = place, behind = place;
      while (before >= 0 && line.eps[before] === null) before--;
      while (behind < line.eps.length && line.eps[behind] === null) behind++;
      if (before < 0 || behind === line.eps.length) return "unknown";
      var begin = line.last[before];
      return epsText(begin + (line.eps[behind] - begin) * (place - before) / (behind - before));
    }
    function say() {
      var text = inUnit(Math.max(0, first + from * span), timeUnit, 5) + " to " + inUnit(first + (from + 1 / zoom) * span, timeUnit, 5);
      if (at !== null) {
        var ref = first + at * span, place = Math.floor((ref - data.begin) / data.step);
        text = "at " + inUnit(ref, timeUnit, 9) + ": " + data.lines.map(function (line) {
          return line.name + " " + epsAt(line, place);
        }).join(", ");
      }
      shown.textContent = text;
    }
    function set(begin, factor) {
      zoom = Math.min(100000, Math.max(1, factor));
      from = Math.min(1 - 1 / zoom, Math.max(0, begin));
      panels.style.setProperty("--from", from);
      panels.style.setProperty("--zoom", zoom);
      ticks();
      say();
    }
    function around(middle, factor) { set(middle - (middle - from) * zoom / Math.min(100000, Math.max(1, zoom * factor)), zoom * factor); }
    var acts = {
      in: function () { around(at === null ? from + 0.5 / zoom : at, 2); },
      out: function () { around(at === null ? from + 0.5 / zoom : at, 0.5); },
      left: function () { set(from - 0.25 / zoom, zoom); },
      right: function () { set(from + 0.25 / zoom, zoom); },
      all: function () { set(0, 1); }
    };
    var keys = { "+": "in", "=": "in", "-": "out", ArrowLeft: "left", ArrowRight: "right", "0": "all" };
    var steps = { ArrowLeft: -0.01, ArrowRight: 0.01 };
    function point(place) {
      at = place;
      cursor.hidden = at === null;
      if (at !== null) cursor.style.setProperty("--x", at);
      say();
    }
    all(controls, "button").forEach(function (button) {
      button.addEventListener("click", function () { point(null); acts[button.dataset.zoom](); });
    });
    panels.addEventListener("keydown", function (event) {
      var act = keys[event.key], step = event.shiftKey && steps[event.key];
      if (!act || event.ctrlKey || event.metaKey || event.altKey) return;
      event.preventDefault();
      if (step) point(Math.min(from + 1 / zoom, Math.max(from, (at === null ? from + 0.5 / zoom : at + step / zoom))));
      else acts[act]();
    });
    function placeOf(event) {
      var box = over.getBoundingClientRect(), part = (event.clientX - box.left) / box.width;
      return part < 0 || part > 1 ? null : from + part / zoom;
    }
    panels.addEventListener("pointermove", function (event) {
      if (drag !== null && event.buttons & 1) set(drag.from - (event.clientX - drag.x) / over.clientWidth / zoom, zoom);
      point(placeOf(event));
    });
    panels.addEventListener("pointerleave", function () { point(null); });
    var drag = null;
    panels.addEventListener("pointerdown", function (event) { drag = event.button === 0 ? { x: event.clientX, from: from } : null; });
    window.addEventListener("pointerup", function () { drag = null; });
    panels.addEventListener("wheel", function (event) {
      if (!event.ctrlKey) return;
      event.preventDefault();
      around(placeOf(event) === null ? from + 0.5 / zoom : placeOf(event), event.deltaY < 0 ? 1.25 : 0.8);
    }, { passive: false });
    window.addEventListener("resize", ticks);
    set(0, 1);

    function lift(devices) {
      all(panels, ".line,.dots").forEach(function (mark) {
        var own = numbers(mark.dataset.devices);
        mark.classList.toggle("dim", devices !== null && !own.some(function (device) { return devices.indexOf(device) >= 0; }));
      });
    }
    all(section, ".legend .device").forEach(function (item) {
      var devices = numbers(item.dataset.devices);
      item.tabIndex = 0;
      ["mouseenter", "focus"].forEach(function (kind) { item.addEventListener(kind, function () { lift(devices); }); });
      ["mouseleave", "blur"].forEach(function (kind) { item.addEventListener(kind, function () { lift(null); }); });
    });
  });
})();
