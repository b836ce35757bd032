"""The colours of all pages and pictures, one for each class of things. Those of levels of service are in model.service;
scripts of pages have theirs in drawing.js, the same where they show the same."""

SPEEDS = ("#a50026", "#f08000", "#3b7fc4")  # of vehicles: standing, one cell a second, two and more
GREEN, RED = "#0a8f6a", "#b3001b"  # of lights
INCREASE, DECREASE = "#b2182b", "#2166ac"  # than before, or than was counted
FEWER_TO_MORE = ("#053061", DECREASE, "#92c5de", "#d8d8d8", "#f4a582", INCREASE, "#67001f")  # in classes
LINE, OTHER_LINE = "#225588", "#c04000"  # of values; also of what fits, and of what does not
STREET = "#bbbbbb"  # of which nothing is known
