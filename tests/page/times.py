"""What a page has to show and do of the times of calls. Each check takes the pages and raises an error if one does not hold; `CHECKS` lists them."""
import re

from checks import HEADINGS, heading, names, step, want

# All words of an item's page, the help too.
WORDS = "document.querySelector('main').textContent"

# The sides of each bar of the axis, and of the axis itself.
SIDES = """(() => {
  const sides = element => (box => [box.left, box.right])(element.getBoundingClientRect());
  const bars = [...document.querySelectorAll('.bar')].map(bar => [bar.dataset.call, sides(bar)]);
  return Object.fromEntries([...bars, ['axis', sides(document.querySelector('.bars'))]]);
})()"""


def times(item):
    """Returns the times of the calls that have one."""
    return {call["id"]: call["time"] for call in item["calls"] if "time" in call}


def precedes(item, earlier, later):
    """Returns whether a call was answered before another began."""
    time = times(item)
    return earlier in time and later in time and time[earlier][1] is not None and time[earlier][1] < time[later][0]


def late_moves(item):
    """Returns the moves of an item's graph whose call began after a call that they leave for later had been answered."""
    late = []
    for move in item["graph"]["edges"]:
        counts = item["graph"]["nodes"][move["from"]]["at"]
        done = dict(zip(["P", *"LRST"[: len(counts) - 2], "X"], counts))
        left = [call["id"] for call in item["calls"] if call["index"] > done[call["part"]]]
        late += [move["call"]] if any(precedes(item, other, move["call"]) for other in left) else []
    return late


def axis(pages):
    """Each call with times is a bar in the lane of its branch: left of all that began after its answer, and over those that it overlaps."""
    for name, width in ("times", 1280), ("times", 400), ("any", 1280):
        for item in pages.items(name):
            browser, time = pages.open(name, item["item"], width=width), times(item)
            if not time:
                want(not browser.texts(".axis") and not browser.texts(".bar"), name, item["item"], "has an axis")
                continue
            side, ends = browser.run(SIDES), [tick for pair in time.values() for tick in pair]
            last = side.pop("axis")[1]
            want(set(side) == set(time) and len(browser.texts(".bar")) == len(time), name, item["item"], side)
            for lane in browser.texts(".lane > b"):
                inside = browser.run("[...document.querySelectorAll('.lane.part-%s .bar')].map(bar => bar.dataset.call)" % lane)
                want(inside == [call["id"] for call in item["calls"] if call["part"] == lane], name, item["item"], lane, inside)
            for one in time:
                reaches_end = time[one][1] is None or None not in ends and time[one][1] == max(ends)
                want((side[one][1] > last - 3) == reaches_end, name, item["item"], one, side[one], last)
                for other in time:
                    want((side[one][1] <= side[other][0]) == precedes(item, one, other), name, item["item"], one, other, side)
                    want((side[one][0] < side[other][0]) == (time[one][0] < time[other][0]), name, item["item"], one, other, side)
    want(not pages.open("lost").texts(".axis"), "a run without times has an axis")


def axis_words(pages):
    """Each bar has its call, its answer, and its times in words; marks tell the core, open ends, and what is against another order."""
    browser = pages.open("times", 3)
    spoken = [name for name in names(browser, "button") if " began at " in name]
    want(spoken == ['L1 put("a", 1) answered true. It began at 0 and was answered at 2. It had been answered before S1 began.',
                    'L2 put("c", 1) answered true. It began at 5, and nobody knows when it was answered.',
                    'R1 put("b", 1) answered true. It began at 1 and was answered at 3. It had been answered before S1 began.',
                    "S1 size() answered 1. It began at 4 and was answered at 6. Its answer is in the core. "
                    "It began after L1 had been answered. It began after R1 had been answered."], spoken)
    groups = names(browser, "group")
    want(groups[0].startswith("When each call began and was answered.") and groups[1:4] == ["Branch L", "Branch R", "Branch S"], groups)
    want(browser.run("[...document.querySelectorAll('.bar')].every(bar => bar.title === bar.getAttribute('aria-label'))"), "other words for the mouse")
    want(browser.texts(".bar") == ["L1→ true", "L2→ true", "R1→ true", "S1→ 1"], browser.texts(".bar"))
    marked = lambda kind: browser.run("[...document.querySelectorAll('.bar.%s')].map(bar => bar.dataset.call).join(' ')" % kind)
    want([marked(kind) for kind in ("wrong", "open", "first", "second")] == ["S1", "L2", "L1 R1", "S1"], "the marks")
    notes = " ".join(browser.text(".axis + p").split())
    want("An open bar has an end that nobody knows. The thick edges are against L S L R" in notes, notes)
    want("S1 began after L1 had been answered and S1 began after R1 had been answered." in browser.text("#in-time"), browser.text("#in-time"))
    want(pages.open("times", 1).text(".scale").split() == ["0", "time", "→", "3"], browser.text(".scale"))
    want(pages.open("times", 8).texts(".bar")[1] == "L2→ failed" and "L2 size() gave no value." in browser.run("document.querySelectorAll('.bar')[1].title"))


def axis_by_keys(pages):
    """The tab key reaches the axis once, the up and down arrows go from bar to bar in the order of time, and enter goes to the call."""
    browser, seen = pages.open("times", 3), []
    for _ in range(30):
        browser.key("Tab")
        seen.append(browser.run("(e => e.classList.contains('bar') ? e.dataset.call : '')(document.activeElement)"))
    want(seen.count("L1") == 1 and set(seen) == {"", "L1"}, seen)
    focused = lambda: browser.run("document.activeElement.dataset.call")
    browser.run("document.querySelector('.bar').focus()")
    for key, call in ("ArrowDown", "R1"), ("ArrowDown", "S1"), ("ArrowDown", "L2"), ("ArrowDown", "L2"), ("ArrowUp", "S1"), ("ArrowUp", "R1"):
        browser.key(key)
        want(focused() == call, key, focused())
    browser.key("Enter")
    want(step(browser) == "2 of 3" and focused() == "R1", step(browser))
    want(browser.run("document.querySelector('.bar.now').dataset.call") == "R1", "the bar of the step is not marked")
    browser.key("ArrowLeft")
    want(step(browser) == "1 of 3" and focused() == "R1" and browser.run("document.querySelector('.bar.now').dataset.call") == "L1", step(browser))
    browser.click('.bar[data-call="L2"]')
    want(step(browser) == "3 of 3", "a click on a bar:", step(browser))


def order_in_time(pages):
    """If only the order in time counts, the page says so. No move of the graph goes against that order, and no call that it rules out can be chosen."""
    browser = pages.open("times", 1)
    want("The order in time that gets furthest" in browser.text("#steps h2"), browser.text("#steps h2"))
    words = browser.text('[aria-label="All orders"] h2')
    want("These are the orders in time, through 3 positions. Each box is a state" in words and "No way leads to the end." in words, words)
    browser.key("ArrowLeft")
    rows = browser.texts(".next .row")
    want(len(rows) == 1 and rows[0].startswith("✓L1"), rows)
    want(pages.open("times", 4).text(".next h3") == "✓ All calls fit", browser.text(".next h3"))
    want("cannot both be right: no order in time makes both right." in pages.open("times", 6).text(".lead"), browser.text(".lead"))
    want("No order in time explains the answers" in pages.open("times", 9).text(".lead"), browser.text(".lead"))
    for item in browser.run("items"):
        browser = pages.open("times", item["item"])
        want(browser.text("h1") == heading(item) and ("order in time" in browser.run(WORDS)) == ("order" in item), item["item"], browser.text("h1"))
        want(("order" in item) == bool(times(item)), item["item"], "has times of which its page does not tell")
        want("order" not in item or "graph" not in item or not late_moves(item), item["item"], "has moves against the order in time")


def order_none(pages):
    """Without the order in time the times are drawn all the same, and no word of the page is about that order."""
    browser = pages.open("any", 1)
    want(browser.text("h1") == HEADINGS["explained"] and len(browser.texts(".bar")) == 2, browser.text("h1"))
    want("none of the 6 orders makes both right." in pages.open("any", 6).text(".lead"), browser.text(".lead"))
    want("6 orders through" in pages.open("any", 6).text('[aria-label="All orders"] h2'), browser.text('[aria-label="All orders"] h2'))
    for item in browser.run("items"):
        browser = pages.open("any", item["item"])
        want(browser.text("h1") == HEADINGS[item["verdict"]] and not browser.texts("#in-time"), item["item"], browser.text("h1"))
        want(not re.search("orders? in time|against|furthest in", browser.run(WORDS)), item["item"], browser.run(WORDS))
        want(bool(browser.texts(".axis")) == bool(times(item)), item["item"], "has an axis" if not times(item) else "has no axis")


CHECKS = [axis, axis_words, axis_by_keys, order_in_time, order_none]
