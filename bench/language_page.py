"""The tables of docs/LANGUAGES.md and of bench/languages.md, and a picture, from the results that bench/languages keeps."""

import os
import re
import unicodedata

import pictures

WIDTH, LEFT, TOP, HEIGHT, GAP = 800, 80, 55, 170, 70  # of the picture
CHOSEN = "#3a6ea5"  # the colour of patterns
LEAST = 0.5  # seconds of patgen below which a ratio says little
OFTEN = 100  # words from which on a letter is named


def number(value):
    return f"{value:,}"


def totals(found):
    """Patterns, found, errors and missed of a run, or why there are none."""
    if not found:
        return ""
    if "stopped" in found:
        return found["stopped"]
    return f"{number(found['patterns'])}: {number(found['good'])}, {number(found['bad'])}, {number(found['missed'])}"


def equality(results):
    """Whether both pattern files are patgen's, or what stopped it."""
    said = {name: equal_in(results, name) for name in ("five", "eight")}
    if said["five"] == said["eight"]:
        return said["five"]
    return "; ".join(f"{name}: {its}" for name, its in said.items() if its)


def equal_in(results, name):
    """Whether the pattern file of one set is patgen's, or what stopped it; nothing where one of them is not there yet."""
    ours, theirs = results.get(name), results.get(f"patgen {name}")
    if not ours or not theirs or "stopped" in ours:
        return ""
    if "stopped" in theirs:
        return f"patgen stops: `{theirs['stopped']}`"
    return "yes" if ours["file"] == theirs["file"] else "**no**"


def winner(results):
    """The winner of the sweep, and what each file costs."""
    sweep = results.get("sweep")
    if not sweep or "stopped" in sweep:
        return sweep["stopped"] if sweep else ""
    costs = ", ".join(number(sweep["costs"][name]) for name in ("five", "eight", "three"))
    return f"{sweep['winner']} ({costs})"


def not_needed(results):
    """How many of the published entries the whole list does not need."""
    prune = results.get("prune")
    if not prune or "stopped" in prune:
        return prune["stopped"] if prune else ""
    all_of = prune["removed"] + prune["kept"]
    return f"{number(prune['removed'])} of {number(all_of)} ({100 * prune['removed'] / all_of:.0f} %)"


def seconds(results, name):
    """The seconds of generate and of patgen by one set, and their ratio where it says something."""
    ours, theirs = results.get(name), results.get(f"patgen {name}")
    if not ours or not theirs or "stopped" in ours:
        return ""
    says = "stopped" not in theirs and theirs["seconds"] >= LEAST
    return f"{ours['seconds']:.2f}, {theirs['seconds']:.2f}" + (f": {ours['seconds'] / theirs['seconds']:.2f}" if says else "")


def both_sets(results):
    """The cells of both sets of levels, and whether their patterns are patgen's."""
    cells = [cell for name in ("five", "eight") for cell in (totals(results.get(name)), seconds(results, name))]
    return " | ".join([*cells, equality(results)])


def in_short(results, name):
    """The number of patterns by one set, and the ratio of the times."""
    found = results.get(name)
    patterns = number(found["patterns"]) if found and "patterns" in found else ""
    return "; ".join(it for it in (patterns, seconds(results, name).partition(": ")[2]) if it)


def short_rows(rows):
    """The table of the page."""
    yield "| Language | Five levels | Eight levels | Not needed |"
    yield "|---|---|---|---|"
    for words, results in rows:
        share_of = re.search(r"\((\d+ %)\)", not_needed(results))
        yield f"| {words.name} | {in_short(results, 'five')} | {in_short(results, 'eight')} | {share_of[1] if share_of else ''} |"


def language_rows(rows):
    """The table of the languages."""
    yield "| Language | Letters | Words, of all | Hyphens | Five levels | Seconds | Eight levels | Seconds | Equal to patgen's | Published entries not needed | Winner of the sweep |"
    yield "|---|---|---|---|---|---|---|---|---|---|---|"
    for words, results in rows:
        made = results["words"]
        yield (f"| {words.name} | {made['letters']} | {number(made['words'])} of {number(made['whole'])} | {number(made['hyphens'])} | "
               f"{both_sets(results)} | {not_needed(results)} | {winner(results)} |")


def share(results):
    """What the published patterns make of hyphens that are marked by hand, in percent of them."""
    found = results.get("published")
    if not found or "stopped" in found:
        return found["stopped"] if found else ""
    all_of = max(1, found["good"] + found["missed"])
    return f"{100 * found['good'] / all_of:.1f} % found, {100 * found['bad'] / all_of:.1f} % errors"


def hand_rows(rows):
    """The table of the lists that are marked by hand."""
    yield "| List | Letters | Words | Hyphens | Published patterns | Five levels | Seconds | Eight levels | Seconds | Equal to patgen's | Winner of the sweep |"
    yield "|---|---|---|---|---|---|---|---|---|---|---|"
    for words, results in rows:
        made = results["words"]
        size = number(made["words"]) + (f" of {number(made['whole'])}" if made["words"] < made["whole"] else "")
        yield (f"| {words.name} | {made['letters']} | {size} | {number(made['hyphens'])} | {share(results)} | "
               f"{both_sets(results)} | {winner(results)} |")


def alone(letter):
    """A letter as it can stand alone: a combining mark gets a circle to stand on."""
    return "\u25cc" + letter if unicodedata.category(letter)[0] == "M" else letter


def lacking_rows(rows):
    """The table of letters that the words have and the patterns lack, each in so many words."""
    yield "| Language | Letters that its patterns lack, and in how many words of the list |"
    yield "|---|---|"
    for words, results in rows:
        often = [f"{alone(letter)} in {number(count)}" for letter, count in results["words"]["lacking"].items() if count >= OFTEN]
        if often:
            yield f"| {words.name} | {', '.join(often)} |"


# The steps whose seconds are told, each with what it is called.
STEPS = {"words": "marking", "patgen five": "patgen, five", "five": "generate", "audit five": "audit", "patgen eight": "patgen, eight", "eight": "generate",
         "audit eight": "audit", "published": "published", "prune": "prune", "sweep": "sweep"}


def cost(found):
    """What one step took: its seconds, and its memory and answer where it has them."""
    if "seconds" not in found:
        return found.get("stopped", "")
    said = [f"{found['seconds']:.2f} s"] + ([f"{found['memory']:.0f} MB"] if "memory" in found else [])
    return ", ".join([*said, *(found[key] for key in ("answer",) if key in found), *(["stopped"] if "stopped" in found else [])])


def cost_rows(rows):
    """The table of seconds and memory, with the sums of the seconds at its end."""
    yield f"| List | {' | '.join(STEPS.values())} |"
    yield "|---|" + "---|" * len(STEPS)
    for words, results in rows:
        yield f"| {words.name} | {' | '.join(cost(results.get(name, {})) for name in STEPS)} |"
    sums = [sum(results.get(name, {}).get("seconds", 0) for _, results in rows) for name in STEPS]
    yield f"| All, {number(round(sum(sums)))} s | {' | '.join(f'{number(round(of))} s' for of in sums)} |"


def package_rows(versions):
    """The table of the packages and their versions."""
    yield "| Version | Packages |"
    yield "|---|---|"
    for version in sorted(set(versions.values())):
        yield f"| {version} | {', '.join(sorted(name for name, its in versions.items() if its == version))} |"


def with_tables(page, tables):
    """A page whose table behind each heading is another one."""
    for heading, rows in tables.items():
        before, title, after = page.partition(f"\n## {heading}\n")
        if not title:
            raise ValueError(f"the page has no heading {heading}")
        table = "\n".join(rows)
        page = before + title + re.sub(r"(?m)^\|.*(?:\n\|.*)*", lambda _, new=table: new, after, count=1)
    return page


def picture(title, levels):
    """What each level gains and costs: above the hyphens that are found and missed and the errors after each level, below the
    patterns that it chose."""
    hyphens = levels[0][1] + levels[0][3]
    most = max(good + bad + missed for _, good, bad, missed in levels)
    most_chosen = max(chosen for chosen, *_ in levels)
    step = (WIDTH - LEFT - 20) / len(levels)
    below = TOP + HEIGHT + GAP
    parts = [pictures.text(LEFT, 20, title), *pictures.legend(LEFT, 42)]
    parts += [pictures.text(LEFT - 8, top + HEIGHT / 2, name, "end") for top, name in ((TOP, "hyphens"), (below, "patterns"))]
    for at, (chosen, *counts) in enumerate(levels):
        left, middle, floor = LEFT + at * step + 6, LEFT + (at + 0.5) * step, TOP + HEIGHT
        for name, count in (("good", counts[0]), ("missed", counts[2]), ("bad", counts[1])):
            height = count * HEIGHT / most
            floor -= height
            parts.append(pictures.box(left, floor, step - 12, height, pictures.COLOURS[name]))
        height = chosen * HEIGHT / most_chosen
        parts += [pictures.text(middle, TOP + HEIGHT + 16, f"{100 * counts[0] / hyphens:.1f} % good", "middle", 11),
                  pictures.text(middle, TOP + HEIGHT + 31, f"{100 * counts[1] / hyphens:.1f} % bad", "middle", 11),
                  pictures.box(left, below + HEIGHT - height, step - 12, height, CHOSEN),
                  pictures.text(middle, below + HEIGHT - height - 4, number(chosen), "middle"),
                  pictures.text(middle, below + HEIGHT + 16, f"level {at + 1}", "middle")]
    return pictures.picture(WIDTH, below + HEIGHT + 30, parts)


def write_page(root, rows, hand, versions, shown):
    """Writes the tables into both pages, and the picture of the levels of one list where there is one."""
    pages = {"docs/LANGUAGES.md": {"The languages": short_rows(rows)},
             "bench/languages.md": {"The languages": language_rows(rows), "Lists that are marked by hand": hand_rows(hand),
                                    "Letters that patterns lack": lacking_rows(rows), "What it cost": cost_rows(rows + hand),
                                    "The packages": package_rows(versions)}}
    for name, tables in pages.items():
        path = os.path.join(root, name)
        with open(path, encoding="utf-8") as file:
            page = file.read()
        with open(path, "w", encoding="utf-8") as file:
            file.write(with_tables(page, tables))
    if not shown:
        return
    words, results = shown
    with open(os.path.join(root, "docs", "levels.svg"), "w", encoding="utf-8") as file:
        file.write(picture(f"{words.name}, {number(results['words']['words'])} words, the eight levels", results["eight"]["levels"]))
