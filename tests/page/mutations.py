"""Faults of the page, each with the check that has to see it."""
import checks
import times
from documents import with_late_moves, without_policy


def edit(old, new):
    """Returns an edit of the template, at the one place where the old text is."""

    def change(page):
        if page.count(old) != 1:
            raise ValueError("the page has %d times: %s" % (page.count(old), old))
        return page.replace(old, new)

    return change


def same(data):
    return data


def raw(data):
    """Returns JSON in which `<`, `>` and `&` are as they are."""
    return data.replace("\\u003c", "<").replace("\\u003e", ">").replace("\\u0026", "&")


def as_markup(page):
    return edit("element.append(...children.flat(99).filter(isSet));", "for (const child of children.flat(99).filter(isSet)) "
                "child.nodeType || !element.insertAdjacentHTML ? element.append(child) : element.insertAdjacentHTML('beforeend', child);")(page)


MUTATIONS = [
    (checks.headline, "a core that is left out", edit("LEADS[item.verdict]()), corePanels(),", "LEADS[item.verdict]()),"), same),
    (checks.headline, "calls for the other branch", edit("callsOf(branch).map(card)", "callsOf('L').map(card)"), same),
    (checks.steps_by_keys, "keys that do nothing", edit("addEventListener('keydown', pressed);", ""), same),
    (checks.steps_by_keys, "steps beyond the last", edit("Math.min(path.length, steps)", "steps"), same),
    (checks.other_orders, "a choice that is not taken", edit("[path, isOwnPath] = [chosen, isOwn];", ""), same),
    (checks.finding, "a list in the order of the file", edit("[...failing, ...items.filter(other => !FAILING.has(other.verdict))]", "items"), same),
    (checks.finding, "a search that finds everything", edit("textOf(other).includes(query)", "true"), same),
    (checks.every_verdict, "a verdict without words", edit("  prefalse: 'This case is not valid: a precondition is false in some order',\n", ""), same),
    (checks.widths, "cards of a fixed width", edit("minmax(min(13.5rem, 100%), 1fr)", "minmax(40rem, 1fr)"), same),
    (checks.hostile_texts, "text set as markup", lambda page: as_markup(without_policy(page)), same),
    (checks.hostile_texts, "data that ends its element", without_policy, raw),
    (checks.hostile_texts, "data that ends its element, under the policy", same, raw),
    (checks.policy, "no policy", without_policy, same),
    (checks.quiet, "an image from elsewhere", lambda page: edit("<body>", '<body><img src="http://127.0.0.1:9/x.png">')(without_policy(page)), same),
    (checks.quiet, "an error in the script", edit("addEventListener('keydown', pressed);", "addEventListener('keydown', pressed); setTimeout(() => missing());"), same),
    (checks.style_first, "a style sheet from elsewhere", edit("<style>", '<link rel="stylesheet" href="page.css"><style>'), same),
    (checks.long_texts, "cards of any height", edit("max-height: 7.5em; overflow: hidden;", ""), same),
    (checks.colors, "a color that is too light", edit("--soft: #63686f;", "--soft: #a3a8af;"), same),
    (checks.colors, "no dark colors", edit("(prefers-color-scheme: dark)", "(prefers-color-scheme: none)"), same),
    (checks.printing, "a list on paper", edit("header, nav, .tool, .help, .model { display: none; }", ""), same),
    (times.axis, "bars that all begin at once", edit("columns.get(began) + ' / '", "'1 / '"), same),
    (times.axis, "bars without their last tick", edit("columns.get(answered) + 1)", "columns.get(answered))"), same),
    (times.axis, "open bars that end at once", edit("(answered === null ? -1 :", "(answered === null ? columns.get(began) + 1 :"), same),
    (times.axis, "bars in the order of the file", edit("sort((a, b) => a - b), columns", "slice(), columns"), same),
    (times.axis, "an axis without times", edit("timed().length > 0 && axis(),", "axis(),"), same),
    (times.axis_words, "bars without words", edit("title: text, 'aria-label': text,", ""), same),
    (times.axis_words, "edges that are not marked", edit("first: isNamed('earlier'),", ""), same),
    (times.axis_by_keys, "a stop of the tab key at each bar", edit("tabindex: call.id === timed()[0].id ? 0 : -1,", ""), same),
    (times.axis_by_keys, "bars that arrows do not reach", edit("moveInAxis = by => inAxis &&", "moveInAxis = by => false &&"), same),
    (times.axis_by_keys, "bars that are not marked at their step", edit("'.card, .bar'", "'.card'"), same),
    (times.order_in_time, "an order in time of which nothing tells", edit("isInTime = () => item.order === 'time'", "isInTime = () => false"), same),
    (times.order_in_time, "a graph that does not tell whose orders it has", edit("isInTime() ? 'These are the orders in time, through ' :", ""), same),
    (times.order_in_time, "moves against the order in time", same, with_late_moves),
    (times.order_none, "times that count though none were asked for", edit("isInTime = () => item.order === 'time'", "isInTime = () => timed().length > 0"), same),
    (times.order_none, "help on an order that does not count", edit("(isInTime() ? [...TIMED_HELP", "(timed().length > 0 ? [...TIMED_HELP"), same),
    (times.order_none, "an axis only if its order counts", edit("timed().length > 0 && axis(),", "isInTime() && axis(),"), same),
    (checks.left_out, "a search that is left out without a word", edit("if (isLeftOut('in_time'))", "if (false)"), same),
    (checks.widths, "an axis that is as wide as its ticks", edit(".axis { overflow-x: auto; ", ".axis { "), same),
    (checks.tabbing, "cards that are no buttons", edit("return button({class: 'card part-'", "return h('div', {class: 'card part-'"), same),
]
