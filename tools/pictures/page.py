"""The page of an album: what to do, the picture for wide and for narrow screens, sheet, overs and clips, tracks."""
import bisect
import re

import levels
from levels import level, told
from reports import FRAME, SECOND
from svg import clean, clock, escaped, length, minus, style

ROWS = 300                                     # of a table of places, at most
GAPS = (1, 8, 38, 75, 375, 750, 2250, 4500, 22500, 45000)  # frames between places that may stand in one row

STYLE = """
:root{color-scheme:light dark;--paper:#fff;--ink:#1b1f23;--soft:#56606a;--edge:#d5dae0;--band:#f4f6f8;--bad:#b33c0c;--good:#1e6e34}
@media (prefers-color-scheme:dark){:root{--paper:#15181c;--ink:#e8eaed;--soft:#a3acb5;--edge:#363d45;--band:#1c2025;--bad:#ffa94d;--good:#6fd08c}}
*{box-sizing:border-box}
body{margin:0 auto;max-width:1080px;padding:20px 16px 48px;background:var(--paper);color:var(--ink);font:15px/1.5 system-ui,'DejaVu Sans',Verdana,sans-serif}
h1{font-size:1.5em;line-height:1.25;margin:0 0 2px;overflow-wrap:anywhere}h2{font-size:1.12em;margin:28px 0 6px}
p{margin:4px 0}.soft,caption{color:var(--soft)}.verdict{font-size:1.12em;font-weight:600;margin:10px 0 14px}code{white-space:nowrap;font-size:.95em}.bad{color:var(--bad)}.good{color:var(--good)}
.picture{display:block;width:100%;height:auto}.narrow{display:none}@media (max-width:640px){.wide{display:none}.narrow{display:block}}
.table{overflow-x:auto}table{border-collapse:collapse;font-variant-numeric:tabular-nums}
th,td{padding:4px 14px 4px 0;text-align:right;white-space:nowrap;border-bottom:1px solid var(--edge)}
th{color:var(--soft);font-weight:600;font-size:.9em;text-align:right;vertical-align:bottom}
.left{text-align:left}.name{white-space:normal;overflow-wrap:anywhere;min-width:9em}tfoot td{font-weight:600;border-bottom:0}
@media (max-width:640px){body{padding:14px 12px 36px;font-size:14px}table{font-size:12.5px}th,td{padding-right:6px}}
@media print{.wide{display:block}.narrow{display:none}}
"""


def table(heads, rows, foot=None, left=(0,), name=()):
    def row(cells, tag, body=True):
        def one(k, it):
            kinds = " ".join(kind for kind, of in (("left", left), ("name", name)) if k in of and (body or kind == "left"))
            return f"<{tag}{' class=' + chr(34) + kinds + chr(34) if kinds else ''}>{escaped(str(it))}</{tag}>"
        return "<tr>" + "".join(one(k, it) for k, it in enumerate(cells)) + "</tr>"
    return ('<div class="table"><table><thead>' + row(heads, "th", False) + "</thead><tbody>\n" + "\n".join(row(it, "td") for it in rows)
            + "\n</tbody>" + (f"<tfoot>{row(foot, 'td')}</tfoot>" if foot else "") + "</table></div>\n")


def stretches(album, kind):
    """Where there are clips or overs: (first frame, frame behind, channels), near ones together so that the rows are
    not too many."""
    found = {}
    for c, row in enumerate(album.channels):
        for k, n in enumerate(getattr(row, kind)):
            if n:
                found.setdefault(k, set()).add(c)
    places = sorted(found)
    for gap in (*GAPS, album.frames):
        out = []
        for k in places:
            if out and k - out[-1][1] < gap:
                out[-1] = (out[-1][0], k + 1, out[-1][2] | found[k])
            else:
                out.append((k, k + 1, set(found[k])))
        if len(out) <= ROWS:
            return out, gap
    return out, gap


def place_rows(album, kind):
    out, gap = stretches(album, kind)
    starts = [a for a, _ in album.spans()]
    rows = []
    for a, b, channels in out:
        clips, overs = (sum(sum(getattr(album.channels[c], it)[a:b]) for c in channels) for it in ("clips", "overs"))
        most = max(max(album.peaks[c][a:b]) for c in channels)
        far = "+" + told(level(most), 2) if level(most) > 0.004 else ""
        track = [bisect.bisect_right(starts, a)] if len(starts) > 1 else []
        rows.append([clock(a / SECOND, 2), clock(b / SECOND, 2), *track,
                     ", ".join(album.names[c] for c in sorted(channels)), f"{overs:,}", f"{clips:,}", far])
    return rows, gap


def places(album, kind, what, meaning):
    """The table of overs, or of clips."""
    rows, gap = place_rows(album, kind)
    near = f" Those less than {gap / SECOND:g} s apart are in one row." if gap > 1 else ""
    total = album.overs if kind == "overs" else album.clips
    head = f"<h2>{what}: {total:,}</h2>\n<p class=\"soft\">{meaning}{near}</p>\n"
    if not rows:
        return head
    heads = ["from", "to", *(["track"] if len(album.tracks) > 1 else []), "channels", "overs", "clips", "dB over"]
    far = any(it[-1] for it in rows)
    return head + table(heads if far else heads[:-1], [it if far else it[:-1] for it in rows], left=(len(heads) - 4,))


def extreme(it):
    return "not known" if it is None else minus(f"{it[0]:,}") if it[1] else "about " + minus(f"{it[0]:,}")


def sheet(album):
    """The level sheet with peaks and overs beside it."""
    rows = []
    for c, row in enumerate(album.channels):
        peak = max(album.peaks[c])
        least = "at least " if album.beyond[c] is None else ""
        rows.append([album.names[c], least + levels.told_level(peak), clock(album.peaks[c].index(peak) / SECOND, 2) if peak else "\u2013",
                     f"{sum(row.clips):,}", f"{sum(row.overs):,}", *(extreme(it) for it in album.extremes[c])])
    foot = ["all", "", "", f"{album.clips:,}", f"{album.overs:,}", "", ""]
    return table(["channel", "peak, dBFS", "at", "clips", "overs", "lowest", "highest"], rows, foot)


def tracks(album):
    if len(album.tracks) < 2:
        return ""
    rows = []
    for n, ((name, first, end), (a, b)) in enumerate(zip(album.tracks, album.spans())):
        peak = max((max(peaks[a:b], default=0) for peaks in album.peaks), default=0)
        clips, overs = (sum(sum(getattr(row, it)[a:b]) for row in album.channels) for it in ("clips", "overs"))
        rows.append([n + 1, clean(name), clock(first / FRAME / SECOND, 2), length((end - first) / FRAME / SECOND), levels.told_level(peak),
                     f"{clips:,}", f"{overs:,}"])
    return (f"<h2>Tracks: {len(rows)}</h2>\n<p class=\"soft\">A frame of 1/75 s counts for the track in which it begins.</p>\n"
            + table(["track", "file", "begins", "length", "peak, dBFS", "clips", "overs"], rows, left=(1,), name=(1,)))


def page(album):
    name, settings = clean(album.title), album.settings.words()
    kind = "bad" if album.clips else "good"
    verdict = re.sub(r"-g -?[0-9.]*[0-9]", r"<code>\g<0></code>", escaped(levels.verdict(album)))
    wide, narrow = levels.draw(album, 1000, True), levels.draw(album, 400, True)
    return (f'<!DOCTYPE html>\n<html lang="en"><head><meta charset="utf-8"/><meta name="viewport" content="width=device-width, initial-scale=1"/>\n'
            f"<title>Levels of {escaped(name)}</title>\n<style>{STYLE}{style()}</style></head><body>\n"
            f"<h1>{escaped(name)}</h1>\n<p class=\"soft\">{escaped(settings)}{'; ' if settings else ''}{escaped(levels.summary(album))}</p>\n"
            f'<p class="verdict {kind}">{verdict}</p>\n'
            f'<div class="wide">{wide}</div><div class="narrow">{narrow}</div>\n'
            f"<h2>Sheet</h2>\n<p class=\"soft\">Lowest and highest are numbers before the clamp; full scale is \u22128,388,608 to 8,388,607.</p>\n{sheet(album)}"
            + places(album, "overs", "Overs", "An over is three or more samples in a row at one end of full scale.")
            + places(album, "clips", "Clips", "A clip is a sample whose number was beyond full scale.")
            + tracks(album) + "</body></html>\n")
