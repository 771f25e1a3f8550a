"""Draws a plot with matplotlib into a file, as SVG or PNG. The text of this file and the plot's numbers determine the picture."""
import matplotlib
from matplotlib import pyplot, ticker

matplotlib.use("agg")
# colours that can be distinguished without telling red from green
COLOURS = ["#1f6fb2", "#d9822b", "#2e8b57", "#8e5ba6", "#777777"]
MARKERS = "os^Dv"
STYLE = {
    "svg.hashsalt": "gerfmuod", "font.size": 9, "axes.titlesize": 10, "axes.titleweight": "bold", "axes.spines.top": False,
    "axes.spines.right": False, "axes.prop_cycle": matplotlib.cycler(color=COLOURS), "legend.frameon": False,
}
ARROW = {"arrowstyle": "-|>", "color": "#49525c", "linewidth": 0.8, "mutation_scale": 7, "shrinkA": 0, "shrinkB": 0}
PLAIN = ticker.FuncFormatter(lambda value, _: f"{value:,g}")


def set_ticks(axis, values):
    """Sets the ticks of a logarithmic axis: at 1, 2 and 5 times a power of ten, or closer if the values are."""
    digits = (1, 2, 5) if max(values) > 10 * min(values) else (1, 1.5, 2, 3, 4, 6, 8)
    axis.set_major_locator(ticker.LogLocator(subs=digits, numticks=20))
    axis.set_major_formatter(PLAIN)
    axis.set_minor_locator(ticker.NullLocator())


def with_legend(figure, axis):
    """Puts the names above the axes of a figure, and returns it."""
    figure.legend(*axis.get_legend_handles_labels(), loc="upper left", ncol=6)
    figure.tight_layout(rect=(0, 0, 1, 1 - 0.27 / figure.get_figheight()))
    return figure


def draw_lines(plot):
    """Lines, in a panel for each title: `lines` has for each name a list of points."""
    panels = plot["panels"]
    figure, axes = pyplot.subplots(1, len(panels), squeeze=False, figsize=(max(8.2, 4.4 * len(panels)), 3.6))
    for axis, panel in zip(axes[0], panels):
        for name, points, marker in zip(plot["names"], panel["lines"], MARKERS):
            axis.plot([x for x, _ in points], [y for _, y in points], marker=marker, markersize=4.5, linewidth=1.4, label=name)
        axis.set(title=panel["title"], xlabel=plot["x"], ylabel=plot["y"])
        points = [point for line in panel["lines"] for point in line]
        if plot["is_log_y"]:
            axis.set_yscale("log")
            set_ticks(axis.yaxis, [y for _, y in points])
        else:
            axis.set_ylim(bottom=0)
        if plot["places"]:
            axis.set_xticks(range(len(plot["places"])), plot["places"])
        else:
            axis.set_xscale("log")
            set_ticks(axis.xaxis, [x for x, _ in points])
        axis.grid(True, axis="y", color="#e4e4e4")
    return with_legend(figure, axes[0][0])


def draw_bars(plot):
    """Groups of bars: `groups` has for each label the values of all names. The bar of a bound is hollow, with its sign above it."""
    figure, axis = pyplot.subplots(figsize=(max(8.2, 0.95 * len(plot["groups"])), 3.6))
    width = 0.84 / len(plot["names"])
    for place, (name, colour) in enumerate(zip(plot["names"], COLOURS)):
        for group, (_, values) in enumerate(plot["groups"]):
            if values[place] is not None:
                sign, value = values[place]
                left = group + (place + 0.5) * width - 0.42
                axis.bar(left, value, width * 0.9, color="none" if sign else colour, edgecolor=colour, linewidth=0.8)
                axis.annotate(sign, (left, value), ha="center", va="bottom", color=colour)
        axis.bar(0, 0, color=colour, label=name)
    axis.set_xticks(range(len(plot["groups"])), [label for label, _ in plot["groups"]])
    axis.set_ylabel(plot["y"])
    axis.yaxis.set_major_formatter(PLAIN)
    axis.margins(x=0.01)
    axis.grid(True, axis="y", color="#e4e4e4")
    axis.set_axisbelow(True)
    return with_legend(figure, axis)


def draw_lanes(plot):
    """A run: a lane for each thread or process, a bar for each body, framed if it is on the critical path, an arrow for each message."""
    lanes = sorted({body[0] for body in plot["bodies"]})
    figure, axis = pyplot.subplots(figsize=(9.6, 0.9 + (0.7 if plot["messages"] else 0.45) * len(lanes)))
    for lane, kind, begin, length, is_critical in sorted(plot["bodies"], key=lambda body: body[4]):
        colour, (frame, width) = COLOURS[plot["names"].index(kind)], ("#111111", 1.2) if is_critical else ("#ffffff", 0.5)
        axis.barh(lane, length, 0.5 if plot["messages"] else 0.76, left=begin, color=colour, edgecolor=frame, linewidth=width)
    for lane, begin, to, end in plot["messages"]:
        axis.annotate("", (end, to), (begin, lane), arrowprops=ARROW)
    for name, colour in zip(plot["names"], COLOURS):
        axis.barh(1, 0, color=colour, label=name)
    axis.barh(1, 0, color="none", edgecolor="#111111", label="on the critical path")
    axis.set_yticks(lanes, [f"{plot['lane']} {number}" for number in lanes])
    axis.invert_yaxis()
    axis.set_xlim(0, plot["elapsed"])
    axis.set_xlabel(f"milliseconds ({plot['title']})")
    return with_legend(figure, axis)


def draw(plot, path):
    with matplotlib.rc_context(STYLE):
        figure = {"lines": draw_lines, "bars": draw_bars, "lanes": draw_lanes}[plot["kind"]](plot)
        figure.savefig(path, metadata={"Date": None, "Creator": None} if path.endswith(".svg") else None, dpi=110)
