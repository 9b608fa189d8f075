"""The page of a sheet, as text."""

from __future__ import annotations

import base64
from collections.abc import Iterable, Sequence
from dataclasses import dataclass, field
from html import escape
from pathlib import Path
from typing import NamedTuple

from tulonkasa import Picture, Refused, Tile
from tulonkasa.command.grouping import Group, Groups
from tulonkasa.command.talk import counted
from tulonkasa.command.words import format_words, listed, tile_words

STYLE = Path(__file__).with_name("sheet.css")
# A picture is enlarged so that neither side is above ROOM, and so many times at most; one whose sides are as TALL to 1 so many times.
SCALE_MOST, ROOM = 8, 160
TALL, TALL_SCALE = 4, 2
NUMBERS_SHOWN = 12
MIRROR = 1

LEGEND = (
    "Each square is a bank, 64 × 64 bytes. <b class='lit'>Lit</b> is what the picture reads, <b class='changed'>blue</b> is what differs "
    "between the captures, and all else is the same leftover in each."
)
SEVERAL = (
    "The same key bytes, read by tile records that differ, as when one wall is captured at several widths. To a split and to a pack each "
    "tile record is a picture of its own."
)


class Story(NamedTuple):
    """Of a picture that was captured more than once: the first banks by the numbers of their records, and at how many addresses the banks
    of all differ."""

    banks: dict[int, Picture]
    differing: int


@dataclass
class Card:
    """A picture of the sheet, which stands for its group."""

    group: Group
    picture: Picture
    lookup: bool
    cut: bool
    story: Story | None = None


@dataclass
class Contents:
    """What stands on the page."""

    name: str
    records: int = 0
    groups: Groups = field(default_factory=Groups)
    cards: list[Card] = field(default_factory=list)
    refusals: list[tuple[int, Tile, Refused]] = field(default_factory=list)


def page(contents: Contents) -> str:
    """The whole page."""
    parts = [heading(contents), captured_again(contents), one_key(contents), all_pictures(contents), refused(contents)]
    return f"""<!doctype html>
<html lang="en">
<head>
<meta charset="utf-8">
<meta name="viewport" content="width=device-width, initial-scale=1">
<title>{escape(contents.name)}: {counted(contents.records, "record")}</title>
<style>
{STYLE.read_text(encoding="utf-8")}</style>
</head>
<body>
{"".join(parts)}</body>
</html>
"""


def heading(contents: Contents) -> str:
    counts = (contents.records, "record"), (len(contents.cards), "picture"), (contents.groups.keys, "key")
    items = "".join("<li><b>{}</b> {}</li>".format(*counted(*count).split()) for count in counts)
    items += f'<li class="refused"><b>{len(contents.refusals):,}</b> refused</li>'
    return f"""<header>
<h1>{escape(contents.name)}</h1>
<ul class="totals">{items}</ul>
<p>Each record holds a tile and the 4,096 bytes that were in texture memory. Its key keeps the bytes that making the visible picture
reads, and no others, so captures that differ in leftover bytes alone share one key, and one painted replacement.</p>
</header>
"""


def captured_again(contents: Contents) -> str:
    """The pictures that were captured more than once, with their banks."""
    stories = [again(card, card.story) for card in contents.cards if card.story]
    return section("again", "One picture, captured more than once", LEGEND, stories) if stories else ""


def again(card: Card, story: Story) -> str:
    numbers = card.group.records
    banks = "".join(
        f'<figure>{image(picture, 2, "bank")}<figcaption>record {number:,}</figcaption></figure>'
        for number, picture in story.banks.items()
    )
    more = len(numbers) - len(story.banks)
    said = f"Records {listed(numbers[:NUMBERS_SHOWN])}{others(numbers)} have one key."
    if story.differing:
        said += f" Their banks differ at {counted(story.differing, 'address', 'addresses')}, and the picture reads none of these."
    else:
        said += " Their banks are equal."
    return f"""<article class="card shared">{frame(card)}<div class="story">
<p>{said}</p>
<div class="row">{banks}{f'<span class="soft">and {more:,} more</span>' if more else ""}</div>
</div></article>
"""


def others(numbers: Sequence[int]) -> str:
    """The rest of a list of numbers that is cut short."""
    return f" and {len(numbers) - NUMBERS_SHOWN:,} others" if len(numbers) > NUMBERS_SHOWN else ""


def one_key(contents: Contents) -> str:
    """The keys that stand under several tile records."""
    families = [groups for groups in contents.groups.by_key().values() if len(groups) > 1]
    stories = [family(contents, groups) for groups in families]
    return section("key", "One key, several tile records", SEVERAL, stories) if stories else ""


def family(contents: Contents, groups: Sequence[Group]) -> str:
    figures = "".join(
        f"<figure>{tiled(contents.cards[group.number])}<figcaption><b>{group.tile.width} × {group.tile.height}</b>, "
        f"record {listed(group.records[:NUMBERS_SHOWN])}{others(group.records)}</figcaption></figure>"
        for group in groups
    )
    kept = sorted({group.kept for group in groups})
    said = f"keeps {counted(kept[0], 'byte')}" if len(kept) == 1 else f"keeps {kept[0]:,} to {kept[-1]:,} bytes, with its zeros"
    return f"""<article class="card shared">{frame(contents.cards[groups[0].number])}<div class="story">
<p>{len(groups)} tile records have this key, which {said}.</p>
<div class="row">{figures}</div>
</div></article>
"""


def tiled(card: Card) -> str:
    """A picture at the size of its tile, as it repeats there. One that is mirrored, and a lookup, is shown once."""
    tile = card.group.tile
    plain = not (card.lookup or (tile.cms | tile.cmt) & MIRROR)
    width, height = (tile.width, tile.height) if plain else (card.picture.width, card.picture.height)
    if not card.picture.bytes:
        return ""
    return (
        f'<div class="checked"><div class="tiled" style="width:{2 * width}px;height:{2 * height}px;'
        f"background-image:url({data_of(card.picture)});"
        f'background-size:{2 * card.picture.width}px {2 * card.picture.height}px"></div></div>'
    )


def all_pictures(contents: Contents) -> str:
    shared = {number: groups for number, groups in contents.groups.by_key().items() if len(groups) > 1}
    figures = [figure(card, shared.get(card.group.key_number, ())) for card in contents.cards]
    about = "One for each tile record and key, in the order of the capture."
    return section("pictures", "All pictures", about, ['<div class="grid">', *figures, "</div>\n"]) if figures else ""


def figure(card: Card, family: Sequence[Group]) -> str:
    group, tile = card.group, card.group.tile
    size = "lookup of 4,096 × 4" if card.lookup else f"{card.picture.width} × {card.picture.height}"
    whole = f' <span class="soft">of {tile.width} × {tile.height}</span>' if card.cut else ""
    chips = [f'<a class="chip" href="#again">{len(group.records):,} captures</a>'] if len(group.records) > 1 else []
    chips += [f'<a class="chip" href="#key">key of {len(family)} tile records</a>'] if family else []
    tall = " tall" if is_tall(card.picture) else ""
    noun = "record" if len(group.records) == 1 else "records"
    return f"""<figure class="card{tall}">{frame(card)}<figcaption class="facts">
<b>{size}</b>{whole}<br>{escape(format_words(tile))}<br>{counted(group.kept, "byte")} kept<br>
{noun} {listed(group.records[:NUMBERS_SHOWN])}{others(group.records)}<br>
<code title="{group.digest}">{group.digest[:12]}</code> {" ".join(chips)}
</figcaption></figure>
"""


def refused(contents: Contents) -> str:
    if not contents.refusals:
        return ""
    rows = "".join(
        f"<tr><td>{number:,}</td><td>{escape(tile_words(tile))}</td><td>{escape(refusal.words)} "
        f'<span class="soft">({refusal.number})</span></td></tr>\n'
        for number, tile, refusal in contents.refusals
    )
    table = f'<div class="scroll"><table>\n<tr><th>record</th><th>tile</th><th>why</th></tr>\n{rows}</table></div>\n'
    return section("refused", "Refused", "Records that no picture is made of.", [table])


def section(name: str, title: str, about: str, parts: Iterable[str]) -> str:
    return f'<section id="{name}">\n<h2>{title}</h2>\n<p class="about">{about}</p>\n{"".join(parts)}</section>\n'


def frame(card: Card) -> str:
    """The picture on a checkerboard, which shows through where it is clear."""
    return f'<div class="frame checked">{image(card.picture, scale(card.picture))}</div>'


def is_tall(picture: Picture) -> bool:
    return picture.height > TALL * max(picture.width, 1)


def scale(picture: Picture) -> int:
    """How many times as large a picture is shown."""
    if is_tall(picture):
        return TALL_SCALE
    return max(1, min(SCALE_MOST, ROOM // max(1, picture.width, picture.height)))


def data_of(picture: Picture) -> str:
    """A picture as an address that has it inside."""
    return "data:image/png;base64," + base64.b64encode(picture.to_png()).decode("ascii")


def image(picture: Picture, times: int, kind: str = "picture") -> str:
    """A picture of the page."""
    if not picture.bytes:
        return '<span class="none">no texel</span>'
    size = f'width="{times * picture.width}" height="{times * picture.height}"'
    return f'<img class="{kind}" {size} alt="" src="{data_of(picture)}">'
