"""What a reform does, as a page with pictures: tools/reform."""
import html
import re
from fractions import Fraction

from .amounts import plain
from .bar_pictures import bars
from .comparers import RATES
from .texts import Language, said


def shares(counts, total):
    """The shares of a weight that classes have, in per cent."""
    return [Fraction(count * 100, total) if total else Fraction(0) for count in counts]


def changes_picture(counts, total):
    """How many gain or lose how much a household."""
    labels = ["≤ -1000", "-500", "-200", "-100", "-50", "< 0", "0", "> 0", "50", "100", "200", "500", "≥ 1000"]
    return bars([(label, [share]) for label, share in zip(labels, shares(counts, total))], " %")


def marginal_picture(counts, total):
    """How many have which marginal rate, before and after."""
    labels = ["< 0"] + [f"{edge} %" for edge in RATES]
    return bars([(label, pair) for label, *pair in zip(labels, *(shares(count, total) for count in counts))], " %")


def shown(line, by):
    """A line of summary.csv as the page's table has it: the name of its group, and what a gain is, in the language of the page."""
    name, *fields, gain = line
    number = re.fullmatch("tenth ([0-9]+)", name)
    if name == "all":
        name = said("reform.all")
    elif by is not None and number:
        name = said("reform.tenth", number=number[1])
    elif by is not None and name == f"no {by}":
        name = said("reform.no_value", name=by)
    return [name, *fields, said("reform." + gain)]


def page(words, found, step, heads, lines):
    """The report: of a comparison of the words' file, with the lines of its groups, whose table has these heads."""
    groups, sign = found.comparison.groups, found.comparison.all.sign
    whole = groups[0]
    total = whole.weight + whole.apart_weight
    cells = "\n".join("<tr>" + "".join(f"<td>{html.escape(str(field))}</td>" for field in shown(line, words.by)) + "</tr>" for line in lines)
    of, is_given = html.escape(words.of), words.more_is_gain or words.less_is_gain
    gain = said("reform.more_gain" if sign > 0 else "reform.less_gain" if is_given else "reform.less_taken")
    code = lambda text: f"<code>{html.escape(text)}</code>"
    amounts = {"before": whole.before, "after": whole.after, "difference": whole.after - whole.before}
    sums = {key: f"<b id={key}>{plain(amount)}</b>" for key, amount in amounts.items()}
    parts = [
        f"<!doctype html><html lang={Language.name}><meta charset=utf-8><title>{said('reform.title')}</title>",
        "<style>body{font:15px/1.5 sans-serif;max-width:60em;margin:2em auto;padding:0 1em}table{border-collapse:collapse;font-size:13px}",
        "td,th{border:1px solid #ccc;padding:.2em .5em;text-align:right}td:first-child{text-align:left}svg{width:100%;height:auto}",
        ".wide{overflow-x:auto}code{overflow-wrap:anywhere}</style>",
        f"<h1>{said('reform.title_of', name=of)}</h1>",
        "<p>" + said("reform.before_after", before=code(words.before), after=code(words.after), table=code(words.table), count=whole.households,
                     weight=plain(total), stopped=whole.apart) + "</p>",
        f"<p>{said('reform.sums', name=of, gain=gain, **sums)}</p>",
        f"<h2>{said('reform.who')}</h2><p>{said('reform.who_more' if sign > 0 else 'reform.who_less', name=of)}</p>",
        changes_picture(found.gains, total),
    ]
    tenths = [group for group in groups[1:] if words.by is not None and group.name.startswith("tenth ")]
    if tenths:
        gains = [(group.name.split()[1], [group.mean_gain]) for group in tenths]
        parts += [f"<h2>{said('reform.tenths', name=html.escape(words.by))}</h2><p>{said('reform.mean_gain')}</p>", bars(gains, "")]
    if step:
        text = said("reform.rates_told", amount=html.escape(step[1]), code=html.escape(step[0]))
        parts += [f"<h2>{said('reform.rates')}</h2><p>{text}</p>", marginal_picture(found.rates, total)]
    head = "".join(f"<th>{html.escape(said('reform.head.' + name))}</th>" for name in heads)
    parts.append(f"<h2>{said('reform.figures')}</h2><div class=wide><table><tr>{head}</tr>{cells}</table></div>")
    before, after = map(code, found.comparison.digests)
    parts.append(f"<p>{said('reform.digests', before=before, after=after, program=code(found.comparison.program))}</p></html>\n")
    return "\n".join(parts)
