#!/usr/bin/env python3
"""Uses the page of `make page` in Chromium, as people do: writing, mending, running, stepping, sharing, with keys
alone, in both themes and on narrow screens. And it compares what the library gives there with what ./rv gives: for
cases of tests/ that need no files, and for random programs.

usage: page.py                  over page/, with every tenth case
       page.py --all            with all cases
       page.py --only NAME      one use alone, as `shares`
       page.py --random N       N random programs in place of 300
       page.py --pictures DIR   keeps what was seen
       page.py --make           makes the page first, where Chromium is installed

Where Chromium is not installed or does not start, or there is no page of today's sources, it says so and passes.
Standard library alone; the last line is 'N passed, M failed'.
"""

import argparse
import base64
import gzip
import json
import subprocess
import sys
import time
from pathlib import Path

import browser
import page_calls

ROOT = Path(__file__).resolve().parent.parent
PAGE = ROOT / "page"
SEEN = "".join((ROOT / "tests/page" / it).read_text() for it in ("seen.js", "audit.js"))
MOST_PACKED = 400_000
SAMPLED = 10
WIDE, MIDDLE, NARROW, LEAST = (1440, 900), (900, 1000), (390, 844), (320, 640)
LEAST_CONTRAST = 4.5
# The smallest module with a memory of 64-bit addresses.
MEMORY64 = "() => WebAssembly.validate(Uint8Array.of(0, 0x61, 0x73, 0x6d, 1, 0, 0, 0, 5, 3, 1, 4, 1))"
READY = "() => document.documentElement?.dataset.ready === 'true'"
SEVEN = """.globl _start
_start: li   a0, 7
        li   a7, 93
        ecall
"""
FAULTY = SEVEN.replace("li   a0, 7", "addi a0, zero, 4000")
STORES = """.globl _start
_start: la   a0, place
        li   a1, 0x41
        sb   a1, 1(a0)
        li   a7, 93
        ecall
.data
place:  .word 7
"""
CALLS = """.globl _start
_start: li   a0, 1
        call twice
        call twice
        li   a7, 93
        ecall
twice:  add  a0, a0, a0
        ret
"""
TWO = [
    ".globl _start\n_start: call seven\n        li a7, 93\n        ecall\n",
    ".globl seven\nseven: li a0, 7\n       ret\n",
]
# It is to be stopped while a person waits, on a machine that does other work.
AT_ONCE = 3
ENDLESS = "# limit: 100000000000\n.globl _start\n_start: addi a0, a0, 1\n        j _start\n"
# For each exercise: what is wrong, and what mends it.
MENDED = [
    ("test.s", "li a0, 3", "li a0, 7"),
    ("larger.s", "bgt  a1, a2, done       # which way round?\n        j    done", "bgt  a1, a2, done"),
    ("sum_table.s", "bne  t0, s1, done       # compare the place, not the number", "beq  s0, s1, done"),
    ("upper.s", "# here", "addi t0, t0, 'A' - 'a'"),
    ("factorial.s", "mul  a0, a0, s0", "ld   s0, (sp)\n        mul  a0, a0, s0"),
    ("factorial.s", "mv   s0, a0", "sd   a0, (sp)"),
]


class Failed(Exception):
    """What is not as it should be."""


def demand(is_so, what):
    if not is_so:
        raise Failed(what)


def same(what, wanted, came):
    demand(wanted == came, f"{what}: wanted {wanted!r}, came {came!r}")


class Person(browser.Tab):
    """Someone before the page."""

    def __init__(self, chromium, address):
        super().__init__(chromium)
        self.address = address
        self.command("Page.addScriptToEvaluateOnNewDocument", source=SEEN)
        self.size(*WIDE)

    def look(self, name, *words):
        """What a function of seen.js gives."""
        return self.run(f"(...words) => seen.{name}(...words)", *words)

    def until(self, name, *words, seconds=30):
        return self.wait(f"(...words) => seen.{name}(...words)", *words, seconds=seconds)

    def enter(self, hash_="", has_forgotten=True):
        """Opens the page, which may know nothing of an earlier visit."""
        self.open("about:blank")
        if has_forgotten:
            self.open(f"{self.address}icon.svg")
            self.wait("() => location.href.endsWith('icon.svg') && (localStorage.clear(), true)")
        self.open(f"{self.address}{hash_}")
        self.wait(READY)

    def settle(self):
        """Waits until what was done is shown: what is written is built after a pause."""
        self.until("isIdle")
        self.wait(READY)

    def put(self, text):
        self.look("put", text)
        self.settle()

    def shows(self, where, text):
        try:
            self.until("has", where, text)
        except TimeoutError:
            raise Failed(f"#{where} does not show {text!r}, but {self.look('text', where)!r}") from None

    def click(self, *buttons):
        for it in buttons:
            self.look("click", it)

    def handles(self, selector):
        """The handles by which DevTools knows elements."""
        words = {"expression": f"[...document.querySelectorAll({json.dumps(selector)})]"}
        found = self.command("Runtime.evaluate", **words)["result"]["objectId"]
        held = self.command("Runtime.getProperties", objectId=found, ownProperties=True)["result"]
        return [it["value"]["objectId"] for it in held if it["name"].isdigit()]

    def told(self, handle):
        """The name of an element, and whether it takes the focus."""
        script = "function() { return [this.tagName + (this.className && '.' + this.className), this.tabIndex >= 0]; }"
        words = {"functionDeclaration": script, "returnByValue": True}
        return self.command("Runtime.callFunctionOn", objectId=handle, **words)["result"]["value"]

    def has_register(self, number, value):
        same(f"x{number}", f"{value:016x}", self.look("register", number))


def writes_and_mends(person):
    person.enter()
    person.put(FAULTY)
    person.shows("faults", "E14 ImmediateRange")
    person.shows("faults", "li a0, 4000 loads it")
    same("what is underlined", "4000", person.look("marked"))
    person.shows("listing", "Nothing is built")
    person.put(SEVEN)
    person.shows("faults", "No fault")
    person.shows("listing", "addi a0,zero,7")
    person.click("run")
    person.shows("end", "Exited with 7 after 3 instructions")


def steps_on_and_back(person):
    person.enter()
    person.put(SEVEN)
    person.click("step")
    person.shows("place", "Step 1 of 3")
    person.has_register(10, 7)
    same("what changed", "a0", person.look("changed"))
    person.click("step")
    person.shows("place", "Step 2 of 3")
    person.has_register(17, 93)
    person.click("back")
    person.shows("place", "Step 1 of 3")
    person.has_register(17, 0)
    person.look("set", "slider", 3, "input")
    person.shows("end", "Exited with 7")


def goes_over_and_out(person):
    person.enter()
    person.put(CALLS)
    person.click("step")
    person.shows("place", "Step 1 of")
    person.click("over")
    person.shows("place", "Step 4 of")
    person.has_register(10, 2)
    person.click("step")
    person.shows("place", "Step 5 of")
    person.click("out")
    person.shows("place", "Step 7 of")
    person.has_register(10, 4)


def stops_where_told(person):
    person.enter()
    person.put(CALLS)
    person.look("breakAt", 7)
    for step in (2, 5):
        person.click("run")
        person.shows("place", f"Step {step} of")
    person.click("run")
    person.shows("end", "Exited with 4")
    person.click("restart")
    person.shows("place", "Step 0 of")
    person.look("breakAt", 7)
    person.look("caret", "li   a7")
    person.click("cursor")
    person.shows("place", "Step 7 of")


def ends_an_endless_loop(person):
    person.enter()
    person.put(ENDLESS)
    breaks = [lambda: person.press("Escape"), lambda: person.click("stop")]
    for stop in breaks:
        person.click("run")
        person.until("isBusy")
        person.shows("status", "instructions")
        stop()
        person.until("isIdle", seconds=AT_ONCE)
        person.shows("status", "Stopped. Next: ")
        person.shows("place", "Step 0 of")
    # what is written and not built yet is what is run
    person.look("put", ENDLESS)
    person.click("run")
    person.until("isBusy")
    # nor does a list of completions keep Escape
    person.look("caret", "addi")
    person.press("Control+Space")
    person.until("choices")
    person.press("Escape")
    person.until("isIdle", seconds=AT_ONCE)
    person.put(SEVEN)
    person.click("run")
    person.shows("end", "Exited with 7")


def tells_of_crashes(person):
    person.enter()
    person.put(SEVEN.replace("ecall", "sd   a0, (a7)"))
    person.click("run")
    person.shows("end", "StoreOutside 5d after 3 instructions")
    person.shows("end", ":4: sd a0,0(a7) at 10006")
    person.shows("end", "Cure: ")
    same("the line that is marked", "        sd   a0, (a7)", person.look("shown", ".layer .now").rstrip("\n"))
    person.point("#end .link")
    same("the line of the crash", 4, person.look("line"))


def reads_and_writes(person):
    person.enter()
    same("the exercise is offered", True, person.look("choose", "upper.s"))
    person.settle()
    same("its input", "risc-v\n", person.look("value", "input"))
    person.click("run")
    person.shows("console", "risc-v")
    person.look("set", "input", "abc", "input")
    person.settle()
    person.click("run")
    person.shows("console", "abc")


def shares(person):
    person.enter()
    person.put(CALLS)
    person.look("set", "input", "abc", "input")
    person.settle()
    person.click("share")
    person.shows("status", "address")
    address = person.look("hash")
    demand(address.startswith("#p="), f"the address has {address!r}")
    person.enter(address)
    same("the program of the address", CALLS, person.look("value", "source"))
    same("its input", "abc", person.look("value", "input"))
    person.enter("#p=nonsense")
    demand(person.look("value", "source"), "an address that cannot be read leaves an empty page")


def keeps_what_was_written(person):
    person.enter()
    person.put(CALLS)
    person.enter(has_forgotten=False)
    same("the program of the last visit", CALLS, person.look("value", "source"))


def keeps_each_program(person):
    """An example takes the place of nothing that was written here."""
    person.enter()
    person.put(CALLS)
    person.look("choose", "upper.s")
    person.settle()
    same("what is open", "upper.s", person.look("chosen", "examples"))
    person.put(SEVEN)
    person.look("choose", "a new program")
    person.settle()
    person.shows("faults", "No fault")
    first = person.look("programs", "Examples")[0]
    same("the programs that were written here", ["upper.s", first], person.look("programs", "Yours"))
    person.look("choose", first)
    person.settle()
    same("the program of before", CALLS, person.look("value", "source"))
    person.enter(has_forgotten=False)
    same("it at the next visit", CALLS, person.look("value", "source"))
    same("and the other one", [first, "upper.s"], person.look("programs", "Yours"))


def has_several_files(person):
    person.enter()
    person.put(TWO[0])
    person.shows("faults", "L5")
    person.look("addFile")
    person.put(TWO[1])
    person.shows("faults", "No fault")
    person.click("run")
    person.shows("end", "Exited with 7")
    # the file in which the run is is shown, but not while another is written
    person.click("restart")
    person.shows("place", "Step 0 of")
    same("the file of the start", TWO[0], person.look("value", "source"))
    person.click("step")
    person.shows("place", "Step 1 of")
    same("the file of the function", TWO[1], person.look("value", "source"))
    person.put(TWO[1] + "# more\n")
    same("the file that is written", TWO[1] + "# more\n", person.look("value", "source"))


def completes(person):
    person.enter()
    person.put(".globl _start\n_start: ")
    person.write("amoad")
    choices = person.until("choices")
    demand("amoadd.drd, rs2, (rs1)" in choices, f"offered is {choices}")
    person.press("Tab")
    demand("amoadd.d" in person.look("value", "source"), "Tab does not take the choice")
    person.write(" a0, a1, (s")
    person.until("choices")
    demand(any(it.startswith("sp") for it in person.look("choices")), f"offered is {person.look('choices')}")


def completes_in_sight(person):
    """In the last line of a long source too, when faults come and take room from the editor."""
    person.enter()
    person.put(SEVEN + "# more\n" * 60)
    person.write("        amo")
    person.until("choices")
    person.shows("faults", "E6 UnknownMnemonic")
    for size in (WIDE, NARROW):
        person.size(*size)
        time.sleep(0.2)
        for it in ("#choices", ".layer .line:last-child"):
            demand(person.look("isInSight", it, "#editor"), f"{it} is out of sight, {size[0]} wide")
    person.size(*WIDE)


def tells_of_exercises(person):
    for name in dict.fromkeys(name for name, _, _ in MENDED):
        person.enter()
        demand(person.look("choose", name), f"there is no {name}")
        person.settle()
        person.shows("end", "Exercise: wanted is ")
        person.click("run")
        person.shows("end", "The exercise is not met yet")
        text = person.look("value", "source")
        for _, fault, cure in (it for it in MENDED if it[0] == name):
            demand(fault in text, f"{name} has no {fault!r}")
            text = text.replace(fault, cure)
        person.put(text)
        person.click("run")
        person.shows("end", "The exercise is met")


def leads_both_ways(person):
    """From a statement to its code, and from code to its statement."""
    person.enter()
    person.put(CALLS)
    person.look("caret", "add  a0")
    same("the code of the line", ["add a0,a0,a0"], person.look("rows", "cursor"))
    person.press("ArrowDown")
    same("the code of the next line", ["jalr zero,0(ra)"], person.look("rows", "cursor"))
    person.point("#listing tr[data-line='5'] .text")
    same("the line of the code", 5, person.look("line"))
    person.look("focusOn", "#listing tr[data-line='3'] .link")
    person.press("Enter")
    same("the line of the code, by a key", 3, person.look("line"))
    same("what has the focus", "source", person.look("focused")["id"])


def explains_faults(person):
    """What is under the mouse, and what is opened, tells of a fault; its place leads to it."""
    person.enter()
    person.put(FAULTY)
    person.point(".layer .marked")
    demand("E14: " in person.look("shown", ".tip"), f"the mouse shows {person.look('shown', '.tip')!r}")
    person.look("caret", "ecall")
    person.point("#faults .link")
    same("the line of the fault", 2, person.look("line"))
    person.point("#faults summary")
    demand("Cure: " in person.look("shown", "#faults details"), "no cure is shown")


def shows_memory(person):
    person.enter()
    person.put(STORES)
    same("the part that is shown", "Variables", person.look("chosen", "region"))
    for _ in range(4):
        person.click("step")
    person.shows("place", "Step 4 of 6")
    same("the bytes", "07410000", person.look("bytes")[:8])
    same("what has changed", "41", person.look("shown", "#memory .changed"))
    demand("place" in person.look("shown", "#memory .names"), "the label is not shown")
    person.look("set", "address", "10000", "change")
    person.settle()
    same("the part of an address", "Address", person.look("chosen", "region"))
    demand(person.look("bytes").startswith("17050000"[:2]), "the code at 10000 is not shown")


def opens_boxes(person):
    """The keyboard opens a box, stays in it, and closes it, and then is where it was."""
    person.enter()
    for box in ("keys", "about"):
        person.look("focus", box)
        person.press("Space")
        demand(person.look("isOpen", f"{box}-box"), f"{box} opens no box")
        for _ in range(3):
            person.press("Tab")
            found = person.look("focused")
            # (what is around the page is come to as well)
            demand(found["isInBox"] or found["tag"] == "BODY", f"Tab leads from the box of {box} to {found['place']}")
        person.press("Escape")
        demand(not person.look("isOpen", f"{box}-box"), f"Escape leaves the box of {box} open")
        same("what has the focus", box, person.look("focused")["id"])


def needs_no_mouse(person):
    """Each control is come to by Tab, on and back, and is ringed there; the keys of the box of keys do what it says."""
    for text in (CALLS, FAULTY):
        person.enter()
        person.put(text)
        person.look("addFile")
        person.settle()
        person.look("focus", "theme")
        for keys in ("Tab", "Shift+Tab"):
            wanted, seen = {*person.look("controls")}, {*walked(person, keys)}
            same(f"controls that {keys} does not come to", [], sorted(wanted - seen))
    same("what only a mouse does", [], clicked_alone(person))
    person.enter()
    person.put(CALLS)
    steps = [("F7", 1), ("F8", 4), ("F7", 5), ("Shift+F8", 7), ("Shift+F7", 6)]
    for keys, step in steps:
        person.press(keys)
        person.shows("place", f"Step {step} of")
    person.press("Control+Enter")
    person.shows("end", "Exited with 4")
    person.look("focus", "slider")
    person.press("Home")
    person.press("ArrowRight")
    person.shows("place", "Step 1 of")
    person.look("caret", "add  a0")
    person.press("F9")
    person.press("Control+Enter")
    person.shows("place", "Step 2 of")
    person.press("Shift+F9")
    person.shows("place", "Step 5 of")


def walked(person, keys):
    """What the focus comes to with a key until it has gone round."""
    first = None
    for _ in range(200):
        person.press(keys)
        found = person.look("focused")
        if found["tag"] == "BODY":
            continue
        if found["place"] == first:
            return
        first = first or found["place"]
        demand(found["isRinged"], f"the focus on {found['place']} is not seen")
        yield found["place"]
        if found["id"] == "source":
            person.press("Escape")
    raise Failed(f"{keys} does not go round")


# What hears the mouse and takes no focus, and how a keyboard does the same.
BY_KEYS = {
    "TR": "the link in the row",
    "DIV.gutter": "F9",
    "TEXTAREA": "the list of faults tells what is under the mouse",
    "DIV": "the arrows and Tab, in a list of completions",
}


def clicked_alone(person):
    """Elements without focus that hear the mouse, but those of BY_KEYS."""
    found = []
    for it in person.handles("body *"):
        words = {"objectId": it, "depth": 0}
        heard = {one["type"] for one in person.command("DOMDebugger.getEventListeners", **words)["listeners"]}
        if heard & {"click", "mousedown", "dblclick", "mousemove"}:
            name, has_focus = person.told(it)
            found += [] if has_focus or name in BY_KEYS else [name]
    return sorted(set(found))


def is_told_to_all(person):
    """Names, roles and landmarks, as the browser's own tree tells them to readers of the screen."""
    person.enter()
    person.put(FAULTY)
    for box in (None, "keys", "about"):
        if box:
            person.click(box)
        nodes = [it for it in person.command("Accessibility.getFullAXTree")["nodes"] if not it.get("ignored")]
        value = lambda it, key: str(it.get(key, {}).get("value", "")).strip()
        with_focus = [it for it in nodes if any(one["name"] == "focusable" for one in it.get("properties", ()))]
        controls = [it for it in nodes if value(it, "role") in CONTROLS] + with_focus
        demand(len(with_focus) >= (2 if box else 20), f"only {len(with_focus)} controls are there")
        nameless = [value(it, "role") for it in controls if not value(it, "name")]
        same("without a name", [], nameless)
        same(
            "without a role", [], [value(it, "name") for it in controls if value(it, "role") in ("generic", "none", "")]
        )
        person.look("closeBoxes")
        if not box:
            lost = LANDMARKS - {value(it, "role") for it in nodes}
            demand(not lost, f"there is no {sorted(lost)}")
    found = person.look("structure")
    same("ids that stand twice", [], found["twice"])
    same("what is pointed to and is not there", [], found["lost"])
    same("headings of the first level", 1, found["first"])
    demand(found["language"] == "en" and found["title"], "the page has no language or no title")


CONTROLS = {"button", "textbox", "combobox", "slider", "link", "option", "listbox", "region", "dialog", "log"}
CONTROLS |= {"DisclosureTriangle", "menu", "navigation"}
LANDMARKS = {"banner", "main", "navigation", "region", "heading", "status", "log"}


def passes_an_audit(person):
    """The rules of audit.js, in both themes, wide and narrow, with faults, a run, completions, files and boxes."""
    found = []
    for theme in ("light", "dark"):
        person.theme(theme)
        for name, prepare in STATES.items():
            person.enter()
            prepare(person)
            for size in (WIDE, MIDDLE, NARROW, LEAST):
                person.size(*size)
                found += [f"{name}, {theme}, {size[0]} wide: {it}" for it in person.run("() => audit()")]
            person.size(*WIDE)
    person.theme("light")
    same("what the audit has found", [], found)


def in_faults(person):
    person.put(FAULTY + "bogus\nlw a0, a1, a2\n")
    person.point("#faults summary")


def in_a_run(person):
    person.put(STORES)
    person.click("step", "step", "step", "step")
    person.settle()


def in_a_crash(person):
    person.put("# exit: 7\n" + SEVEN.replace("ecall", "sd   a0, (a7)"))
    person.click("run")
    person.shows("end", "Cure: ")


def in_completions(person):
    person.put(".globl _start\n_start: ")
    person.write("amoad")
    person.until("choices")


def in_files(person):
    person.put(CALLS)
    person.look("addFile")
    person.settle()


STATES = {
    "a new page": lambda person: None,
    "faults": in_faults,
    "a run": in_a_run,
    "a crash": in_a_crash,
    "completions": in_completions,
    "files": in_files,
    "the keys": lambda person: person.click("keys"),
    "about": lambda person: person.click("about"),
}


def is_readable(person):
    """The contrast of each text in both themes, with faults, a run, and the boxes open."""
    states = [(FAULTY, None), (CALLS + ".data\nx: .word 1\n", "about"), (SEVEN, "keys")]
    for theme in ("light", "dark"):
        person.theme(theme)
        for text, box in states:
            person.enter()
            person.put(text)
            person.click("step", "step", *filter(None, [box]))
            person.settle()
            found = person.look("faint", LEAST_CONTRAST)
            demand(found["count"] > 40, f"only {found['count']} texts were looked at")
            same(f"too faint in the {theme} theme", [], found["wrong"])
    person.theme("light")


def fits_narrow_screens(person):
    for width, height in (LEAST, NARROW, MIDDLE, WIDE):
        person.size(width, height)
        person.enter()
        person.put(CALLS)
        wanted = person.look("width")
        demand(wanted <= width, f"{wanted} pixels are wanted on a screen of {width}")
    person.size(*WIDE)


def asks_no_other_host(person):
    person.browser.events.clear()
    person.enter()
    person.put(SEVEN)
    person.click("run")
    person.shows("end", "Exited with 7")
    events = [(it.get("method"), it.get("params", {})) for it in person.browser.events]
    asked = [it["request"]["url"] for name, it in events if name == "Network.requestWillBeSent"]
    demand(len(asked) > 10, f"only {len(asked)} requests were seen")
    own = (person.address, "about:", "data:")
    same("requests to others", [], [it for it in asked if not it.startswith(own)])
    same("complaints", [], [it["entry"]["text"] for name, it in events if name == "Log.entryAdded"])


def says_what_it_needs(person):
    words = {"source": "WebAssembly.validate = () => false"}
    added = person.command("Page.addScriptToEvaluateOnNewDocument", **words)["identifier"]
    person.open("about:blank")
    person.open(person.address)
    person.wait("() => document.readyState === 'complete'")
    person.shows("status", "WebAssembly with 64-bit memory")
    person.command("Page.removeScriptToEvaluateOnNewDocument", identifier=added)


def is_small(_):
    size = packed()
    demand(size <= MOST_PACKED, f"{size} bytes packed, and {MOST_PACKED} are allowed")


USES = [writes_and_mends, steps_on_and_back, goes_over_and_out, stops_where_told, ends_an_endless_loop]
USES += [tells_of_crashes, reads_and_writes, shares, keeps_what_was_written, keeps_each_program, has_several_files]
USES += [completes, completes_in_sight]
USES += [tells_of_exercises, leads_both_ways, explains_faults, shows_memory, opens_boxes, needs_no_mouse]
USES += [is_told_to_all, passes_an_audit, is_readable, fits_narrow_screens]
USES += [asks_no_other_host, says_what_it_needs, is_small]


def packed():
    """The bytes of the page with all that it loads, as servers send them."""
    return sum(len(gzip.compress(it.read_bytes(), 9)) for it in PAGE.rglob("*") if it.is_file())


def compare(person, step, count):
    """How many cases, of which each `step`th is looked at, and random programs differ from what ./rv gives."""
    person.enter()
    held, known = page_calls.cases()
    yield page_calls.differences(person, f"of {known} cases of tests/", held[::step])
    calls = [*page_calls.random_cases(count, PAGE / "data/language.json")]
    yield page_calls.differences(person, "random programs", calls)


def pictures(person, folder):
    """Keeps what is seen in both themes, narrow and wide, of a run, a crash and faults."""
    folder.mkdir(parents=True, exist_ok=True)
    program = (ROOT / "examples/number.s").read_text()
    faulty = program.replace("addi sp, sp, -32", "addi sp, sp, -3200").replace("bnez a0, 1b", "bnz a0, 1b")

    def keep(name, whole=False):
        (folder / f"{name}.png").write_bytes(base64.b64decode(person.picture(whole)))

    for theme in ("light", "dark"):
        person.theme(theme)
        person.enter()
        person.put(program)
        person.look("breakAt", 15)
        for it, place in (("run", "Step 9"), ("step", "Step 10"), ("step", "Step 11"), ("step", "Step 12")):
            person.click(it)
            person.shows("place", place)
        keep(f"stepping-{theme}")
        person.put(faulty)
        keep(f"faults-{theme}")
        person.put(program.replace("sb   t1, (a1)", "sb   t1, (t0)"))
        person.click("run")
        person.shows("place", "Step 9")
        person.click("run")
        person.shows("end", "StoreOutside")
        keep(f"crash-{theme}")
        person.put(program)
        for name, size in (("narrow", NARROW), ("middle", MIDDLE)):
            person.size(*size)
            person.click("run")
            person.settle()
            keep(f"{name}-{theme}", whole=True)
        person.size(*WIDE)
    for theme, box in (("dark", "keys"), ("light", "about")):
        person.theme(theme)
        person.click(box)
        keep(box)
        person.look("closeBoxes")


def made_page():
    """Makes the page of today's sources; the status of what makes it."""
    return subprocess.run(["make", "--no-print-directory", "page"], cwd=ROOT).returncode


def missing():
    """What there is not, without which nothing can be tested."""
    if not browser.program():
        return "Chromium is not installed"
    made = PAGE / "data/facts.json"
    if not (made.exists() and (PAGE / "rv.wasm").exists()):
        return "there is no page/, which make page makes"
    words = ["make", "--question", "--no-print-directory", str(made.relative_to(ROOT))]
    told = subprocess.run(words, cwd=ROOT, stdout=subprocess.DEVNULL, stderr=subprocess.DEVNULL)
    return "page/ is older than its sources, make page makes it anew" if told.returncode else ""


def person_before(chromium, address):
    """Someone before the page, and what there is not, without which nothing can be tested."""
    try:
        person = Person(chromium, address)
    except (OSError, TimeoutError):
        return None, "Chromium does not start"
    return person, "" if person.run(MEMORY64) else "this Chromium has no 64-bit memory in WebAssembly"


def passed_over(why):
    print(f"{why}: the page is not tested\n0 passed, 0 failed")
    return 0


def used(person, only):
    """How many of the uses go well, and how many do not."""
    passed = failed = 0
    for use in USES:
        if only and only != use.__name__:
            continue
        try:
            use(person)
            passed += 1
        except (Failed, TimeoutError, browser.Refused) as why:
            failed += 1
            print(f"{use.__name__}: {why}", flush=True)
    return passed, failed


def main():
    parser = argparse.ArgumentParser(description=__doc__.split("\n\n")[0])
    parser.add_argument("--all", action="store_true")
    parser.add_argument("--random", type=int, default=300)
    parser.add_argument("--only", default="")
    parser.add_argument("--pictures", type=Path)
    parser.add_argument("--make", action="store_true")
    words = parser.parse_args()
    if words.make and browser.program() and (status := made_page()):
        return status
    if why := missing():
        return passed_over(why)
    with browser.served(PAGE) as address, browser.browsing() as chromium:
        person, why = person_before(chromium, address)
        if why:
            return passed_over(why)
        passed, failed = used(person, words.only)
        if words.pictures:
            pictures(person, words.pictures)
        if not words.only and page_calls.RV.exists():
            wrong = [*compare(person, 1 if words.all else SAMPLED, words.random)]
            passed += wrong.count(0)
            failed += len(wrong) - wrong.count(0)
    print(f"{passed} passed, {failed} failed")
    return 1 if failed else 0


if __name__ == "__main__":
    sys.exit(main())
