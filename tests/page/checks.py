"""What a page has to show and do. Each check takes the pages and raises an error if one does not hold; `CHECKS` lists them."""
import json
import re
import time

HEADINGS = {
    "unexplained": "No order of these calls gives these answers", "explained": "An order of these calls gives these answers",
    "fault": "The model itself faults on this run", "broken": "A call did not give a usable answer", "valid": "This case is valid in every order",
    "prefalse": "This case is not valid: a precondition is false in some order", "casefault": "This case is not valid: the model faults in some order",
}
FAILING = set(HEADINGS) - {"explained", "valid"}
IN_TIME = "No order in time gives these answers"

# Of each visible text the contrast with what is behind it, where it is below 4.5; and the controls without a name.
CONTRAST = r"""(() => {
  const parts = color => { const found = color.match(/[\d.]+/g).map(Number); return found.length < 4 ? [...found, 1] : found; };
  const over = (a, b) => a.slice(0, 3).map((x, i) => x * a[3] + b[i] * (1 - a[3])).concat(1);
  const channel = x => (x /= 255) <= .03928 ? x / 12.92 : ((x + .055) / 1.055) ** 2.4;
  const light = ([r, g, b]) => .2126 * channel(r) + .7152 * channel(g) + .0722 * channel(b);
  const ancestors = element => { const all = []; for (let e = element; e; e = e.parentElement) all.unshift(e); return all; };
  const low = [], walker = document.createTreeWalker(document.body, NodeFilter.SHOW_TEXT);
  while (walker.nextNode()) {
    const element = walker.currentNode.parentElement, svg = element.closest('svg'), style = getComputedStyle(element);
    if (!walker.currentNode.data.trim() || !element.getClientRects().length || element.closest('script, noscript, title, .unseen, [disabled]')) continue;
    let back = ancestors(element).reduce((color, e) => over(parts(getComputedStyle(e).backgroundColor), color), [255, 255, 255, 1]);
    const box = svg && element.parentElement.querySelector('rect');
    if (box) back = over(parts(getComputedStyle(box).fill), back);
    const front = parts(svg ? style.fill : style.color), opacity = ancestors(element).reduce((all, e) => all * getComputedStyle(e).opacity, 1);
    const [x, y] = [light(over([...front.slice(0, 3), front[3] * opacity], back)), light(back)].sort((a, b) => b - a);
    if ((x + .05) / (y + .05) < 4.5) low.push(element.tagName + '.' + (element.className.baseVal ?? element.className) + ' ' + walker.currentNode.data.slice(0, 20));
  }
  const named = element => (element.innerText || element.getAttribute('aria-label') || '').trim();
  return [...low, ...[...document.querySelectorAll('button, a, input')].filter(e => e.getClientRects().length && !named(e)).map(e => e.outerHTML)];
})()"""

# Opens each item of the list and goes through its steps. Returns what is wrong.
WALK = r"""(() => {
  const wrong = [], press = key => document.body.dispatchEvent(new KeyboardEvent('keydown', {key, bubbles: true}));
  document.querySelector('#all').click();
  for (let i = 0; i < document.querySelectorAll('#list a').length; i++) {
    document.querySelectorAll('#list a')[i].click();
    const where = document.querySelector('.place').innerText;
    const steps = document.querySelectorAll('.steps .row:not(.head)').length;
    for (const count of [0, steps]) {
      for (let n = 0; n < count; n++) press('ArrowLeft');
      const text = document.querySelector('main').innerText, page = document.documentElement;
      if (/undefined|\[object|NaN|null/.test(text)) wrong.push(where + ': a text that is none');
      if (page.scrollWidth > innerWidth) wrong.push(where + ': ' + page.scrollWidth + ' wide');
    }
  }
  return wrong;
})()"""


def want(condition, *details):
    """Raises an error with the details if the condition does not hold."""
    if not condition:
        raise AssertionError(" ".join(map(str, details)))


def step(browser):
    """Returns the words over the steps, as `3 of 4`, or None."""
    found = re.search(r"\d+ of \d+", browser.text("#steps h2") or "")
    return found and found[0]


def headline(pages):
    """The verdict in words, and the answers that cannot all be right."""
    browser = pages.open("lost")
    want(browser.text("h1") == HEADINGS["unexplained"], browser.text("h1"))
    want("cannot both be right: none of the 2 orders makes both right" in browser.text(".lead"), browser.text(".lead"))
    cards = browser.texts(".core .panel")
    want(len(cards) == 2, cards)
    want(cards[0].startswith("L1 inc() answered 1") and "If R1 is right, the model expects 2." in cards[0], cards[0])
    want(cards[1].startswith("R1 inc() answered 1") and "If L1 is right, the model expects 2." in cards[1], cards[1])
    want(browser.texts(".branches .card .id") == ["L1", "R1"], browser.texts(".branches .card .id"))
    want(browser.texts(".branches .card code") == ["inc()", "→ 1", "2"] * 2, browser.texts(".branches .card code"))
    want(browser.text("header") .split() == ["pst", "counter", "·", "1", "run,", "1", "failing"], browser.text("header"))
    want(browser.run("document.title").startswith("1 unexplained far 1"), browser.run("document.title"))


def heading(item):
    """Returns the heading of an item, which names the order in time if that alone counts."""
    return IN_TIME if item["verdict"] == "unexplained" and item.get("order") == "time" else HEADINGS[item["verdict"]]


def names(browser, role):
    """Returns the names that a screen reader has for what has a role."""
    nodes = browser.call("Accessibility.getFullAXTree")["nodes"]
    return [node["name"]["value"] for node in nodes if node.get("role", {}).get("value") == role and node.get("name", {}).get("value")]


def steps_by_keys(pages):
    """The arrow keys go through the order, which begins where it is stuck and tells why."""
    browser = pages.open("cache", 3)
    want(step(browser) == "4 of 4" and "Stuck" in browser.text(".next h3"), step(browser), browser.text(".next h3"))
    want(len(browser.texts(".next .row.no")) == 1, browser.texts(".next .row"))
    want('X1 all() → ["a", "c"]' in browser.text(".next .row.no"), browser.text(".next .row.no"))
    want('the model expects ["c", "a"]' in browser.text(".next .row.no"), browser.text(".next .row.no"))
    want([row.split("→")[0].strip() for row in browser.texts(".steps .row .text:not(code)")] == ['L1 use("a")', 'L2 use("b")', 'R1 use("c")', 'L3 use("a")'])
    want(browser.texts(".steps .row code.soft") == ["[]", '["a"]', '["a", "b"]', '["b", "c"]', '["c", "a"]'], browser.texts(".steps .row code.soft"))
    browser.key("ArrowLeft")
    want(step(browser) == "3 of 4" and "What can come next" in browser.text(".next h3"), step(browser))
    want(browser.run("document.querySelector('#live').textContent") == 'Step 3 of 4: R1 use("c"), state ["b", "c"]')
    for key, words in [("Home", "0 of 4"), ("ArrowLeft", "0 of 4"), ("ArrowRight", "1 of 4"), ("ArrowRight", "2 of 4"), ("End", "4 of 4"), ("ArrowRight", "4 of 4")]:
        browser.key(key)
        want(step(browser) == words, key, step(browser))
    want(browser.text('[data-call="L2"] .step') == "2" and browser.text('[data-call="X1"] .step') == "✗")
    browser.click('[data-call="R1"]')
    want(step(browser) == "3 of 4", "a click on a card:", step(browser))
    want(not browser.errors(), browser.errors())


def other_orders(pages):
    """A call or a box of the graph can be chosen, and the way back."""
    browser = pages.open("cache", 3)
    want(len(browser.texts(".graph .node")) == 11 and len(browser.texts(".graph .move.on")) == 4, len(browser.texts(".graph .node")))
    want(len(browser.texts(".graph .node.dead")) == 3, browser.texts(".graph .node.dead"))
    browser.key("Home")
    browser.click('[data-key="nextR1"]')
    want("An order of your own" in browser.text("#steps h2") and step(browser) == "1 of 1", browser.text("#steps h2"))
    browser.click('[data-key="nextL1"]')
    browser.click('[data-key="nextL2"]')
    want("Stuck" in browser.text(".next h3") and step(browser) == "3 of 3", browser.text(".next h3"))
    browser.run("document.querySelector('[data-key=back]').focus()")
    browser.key("Enter")
    want(step(browser) == "4 of 4" and "furthest" in browser.text("#steps h2"), browser.text("#steps h2"))
    browser.run("document.querySelector('[data-key=previous]').focus()")
    browser.key("Enter")
    want(browser.run("document.activeElement.dataset.key") == "previous" and step(browser) == "3 of 4", "the focus stays")
    browser.click(".graph .node:last-of-type")
    want(step(browser) == "4 of 4", "a click on a box:", step(browser))


def finding(pages):
    """The list has failing runs first, and can be filtered and searched."""
    browser = pages.open("counter")
    verdicts = [item["verdict"] for item in pages.items("counter")]
    failing = [str(n) for n, verdict in enumerate(verdicts, 1) if verdict in FAILING]
    others = [str(n) for n, verdict in enumerate(verdicts, 1) if verdict not in FAILING]
    numbers = lambda: [entry.split()[0] for entry in browser.texts("#list a")]
    want(0 < len(failing) < len(verdicts) and numbers() == failing, numbers())
    want(browser.text("#failing") == "Failing %d" % len(failing) and browser.text("#all") == "All %d" % len(verdicts))
    want(browser.text(".place").split()[:3] == [verdicts[int(failing[0]) - 1], "Run", failing[0]], browser.text(".place"))
    browser.key("j")
    want(browser.run("location.hash") == "#" + failing[1] and browser.text("#list [aria-current]").startswith(failing[1]), browser.run("location.hash"))
    browser.key("k")
    want(browser.run("location.hash") == "#" + failing[0], browser.run("location.hash"))
    browser.click("#all")
    want(numbers() == failing + others, numbers())
    browser.key("/")
    browser.type("misfit")
    wanted = [str(item["item"]) for item in pages.items("counter") if "misfit" in json.dumps(item["calls"])]
    want(numbers() == wanted and 0 < len(wanted) < len(failing), numbers())
    browser.key("Escape")
    want(browser.run("document.activeElement === document.body"), "escape leaves the search")
    browser.click("#list a")
    want(browser.text(".badge") == "broken" and browser.text("h1") == HEADINGS["broken"], browser.text("h1"))
    browser.run("location.hash = '#%s'" % others[-1])
    time.sleep(0.1)
    want(verdicts[int(others[-1]) - 1] in browser.text(".place"), browser.text(".place"))


def every_verdict(pages):
    """Each item of each page has the words of its verdict, its core with the allowed answers, and no text that is none."""
    seen = set()
    for name in pages.names():
        for item in pages.items(name):
            browser = pages.open(name, item["item"])
            seen.add(item["verdict"])
            want(browser.text("h1") == heading(item), name, item["item"], browser.text("h1"))
            want(browser.texts(".place .mono") == ["%(file)s:%(line)d" % item["at"]], name, browser.texts(".place .mono"))
            cards, core = browser.texts(".core .panel"), item.get("core", [])
            want([card.split()[0] for card in cards] == [answer["call"] for answer in core], name, item["item"], cards)
            for card, answer in zip(cards, core):
                if answer.get("allowed", {}).get("values"):
                    want(("the model expects" if answer["allowed"]["only"] else "the model allows") in card, name, item["item"], card)
            want(len(browser.texts(".card")) == len(item["calls"]), name, item["item"], browser.texts(".card"))
            want(not re.search(r"undefined|\[object|NaN|null", browser.text("main")), name, item["item"], browser.text("main"))
    want(seen == set(HEADINGS), "no page has", set(HEADINGS) - seen)


def widths(pages):
    """At 1280, 480 and 320 pixels nothing scrolls sideways, in each item at each step."""
    for name in pages.names():
        for width in 1280, 480, 320:
            wrong = pages.open(name, width=width).run(WALK)
            want(not wrong, name, width, wrong)


def hostile_texts(pages):
    """Texts that look like elements stay texts."""
    browser = pages.open("hostile")
    time.sleep(0.1)
    want(browser.run("document.title").startswith("1 unexplained"), browser.run("document.title"))
    want(browser.run("document.querySelectorAll('main img, main script, svg[onload], main b b').length") == 0, "an element came of a text")
    want(browser.run("document.querySelectorAll('script').length") == 2, "a script came of a text")
    for text in "</script><script>document.title='pwned'</script>", "&lt;b&gt; &amp;", "<img src=x onerror=document.title='pwned'>", "]]>":
        want(text in browser.text("main"), text, "is not shown as it is")
    want(not browser.errors(), browser.errors())


def policy(pages):
    """A script or an image that is put into the page does not run and is not asked for."""
    browser = pages.open("lost")
    browser.run("""(() => { const script = document.createElement('script'), box = document.createElement('div'); script.textContent = 'window.pwned = 1';
      box.innerHTML = '<img src=http://localhost:9/x onerror="window.pwned = 2">'; document.body.append(script, box); })()""")
    time.sleep(0.2)
    want(browser.run("window.pwned === undefined"), "a script ran")
    want(all(url.startswith("file:") for url in browser.requests()), browser.requests())


def quiet(pages):
    """A page asks for nothing but itself, and logs nothing."""
    for name in pages.names():
        browser = pages.open(name)
        browser.key("ArrowLeft")
        want(browser.requests() == [browser.run("location.href.replace(/#.*/, '')")], name, browser.requests())
        want(not browser.errors(), name, json.dumps(browser.errors())[:500])


def style_first(pages):
    """All style comes before the body and from the page itself, so no text is ever shown without it."""
    text = pages.text("lost")
    want(text.index("</style>") < text.index("<body>") and "<link" not in text and "@import" not in text, "style comes late")
    want(text.count("<style>") == 1 and " src=" not in text[: text.index('id="data"')], "style from elsewhere")


def long_texts(pages):
    """A reply and a state of 65,536 letters are shown in a page of a bounded size."""
    for width in 1280, 480:
        browser = pages.open("long", width=width)
        want(browser.text("h1") == HEADINGS["unexplained"], browser.text("h1"))
        want(browser.run("document.documentElement.scrollWidth <= innerWidth"), browser.run("document.documentElement.scrollWidth"))
        want(browser.run("document.documentElement.scrollHeight") < 4000, browser.run("document.documentElement.scrollHeight"))
        want("x" * 60000 in browser.texts(".branches .card")[0], "the reply is cut")
        browser.key("ArrowLeft")
        want(step(browser) == "0 of 1" and not browser.errors(), step(browser), browser.errors())


def colors(pages):
    """The page is dark or light as the system is, and each text has a contrast of at least 4.5."""
    for dark in False, True:
        for name, item in ("lost", 1), ("cache", 3), ("counter", 8), ("faults", 1), ("four", 1), ("init", 1), ("times", 1), ("times", 3), ("times", 7):
            browser = pages.open(name, item, dark=dark)
            browser.key("ArrowLeft")
            back = browser.run("getComputedStyle(document.body).backgroundColor.match(/\\d+/g).every(part => part < 128)")
            want(back == dark, name, "is dark" if back else "is light")
            want(not browser.run(CONTRAST), name, "dark" if dark else "light", browser.run(CONTRAST))


def printing(pages):
    """On paper the chosen run is all there is, on white."""
    browser = pages.open("cache", 3, dark=True, media="print")
    shown = lambda selector: browser.run("[...document.querySelectorAll(%s)].some(e => e.getClientRects().length)" % json.dumps(selector))
    want(not shown("header, nav, .tool, .help") and shown(".core .panel") and shown(".card") and shown(".steps .row") and shown(".graph svg"), "what is printed")
    want(browser.run("getComputedStyle(document.body).backgroundColor") == "rgb(255, 255, 255)", "not white")
    want(not [text for text in browser.run(CONTRAST) if not text.startswith("<")], browser.run(CONTRAST))


def tabbing(pages):
    """The tab key reaches the cards, the buttons and the steps."""
    browser, seen = pages.open("lost"), set()
    for _ in range(12):
        browser.key("Tab")
        seen.add(browser.run("(e => e.dataset.call || e.dataset.key || e.tagName)(document.activeElement)"))
    want({"L1", "R1", "previous", "step0", "step1", "SUMMARY"} <= seen, seen)


def left_out(pages):
    """What is missing because its search takes too many steps is named."""
    browser = pages.open("cut")
    for selector, words in (".lead", "Which answers cannot all be right is left out"), ("#steps h2", "The order that gets furthest is left out"), (
            "#in-time", "Whether any order would explain it without its times is left out"):
        want(words in (browser.text(selector) or ""), selector, browser.text(selector))


def many_items(pages):
    """A page of 2,000 runs opens and finds in a few seconds."""
    start = time.time()
    browser = pages.open("many")
    want(time.time() - start < 20, "opens in", time.time() - start)
    browser.click("#all")
    want(len(browser.texts("#list a")) == 1000 and browser.texts("#list .tool") == ["show all 2000"], browser.texts("#list .tool"))
    start = time.time()
    browser.key("/")
    browser.type("store.runs:23")
    want(time.time() - start < 10 and len(browser.texts("#list a")) == 250, len(browser.texts("#list a")))


def campaigns(pages):
    """The page of a campaign says how many trials failed, and names the trial of each failure."""
    facts, items = (json.loads(pages.data["failed"])[key] for key in ("campaign", "items"))
    browser = pages.open("failed")
    want(facts == {"seed": 0, "trials": 6, "failed": 6} and items, facts)
    want(browser.text("#title") == "counter · 6 of 6 trials failed, seed 0", browser.text("#title"))
    want("trial %d" % items[0]["trial"] in browser.text(".place"), browser.text(".place"))
    browser = pages.open("passed")
    want(browser.text("#title") == "counter · 0 of 6 trials failed, seed 0", browser.text("#title"))
    want(browser.text("#main") == "No trial failed.", browser.text("#main"))


CHECKS = [campaigns, headline, steps_by_keys, other_orders, finding, every_verdict, widths, hostile_texts, policy, quiet, style_first, long_texts, colors, printing, tabbing,
          left_out, many_items]
