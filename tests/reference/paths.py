"""Paths of EMF ([MS-EMF] 2.3.10): figures of places, what records add to them, and what ends and
closes them, for the reference player.

Places are those of the moment at which they are added: a path doesn't know the page.
"""

from reference.pixels import Refused, closed, opened

# How many pieces a path may have, and how many points may be painted at once.
MOST_PIECES = 1 << 16
MOST_POINTS = 1 << 20

# An open figure is gone on with by lines and may be closed; an ended one stays as it is. A closed
# one has a line from its last place to its first.
OPEN, ENDED, CLOSED = "open", "ended", "closed"


class PathState(Refused):
    """A record begins a path while one is open, or needs an open or a finished one that isn't
    there."""


class TooManyPieces(Refused):
    """A path would be gathered from more pieces than one may have."""


class TooManyEdges(Refused):
    """A path that is painted has more points than a drawing may have."""


class Figure:
    """A figure: its places in order, and what may still be done to it."""

    def __init__(self, places, state):
        self.places = places
        self.state = state

    def lines(self):
        """Its lines where they are stroked alone."""
        return closed(self.places) if self.state == CLOSED else opened(self.places)


class Path:
    """A path: its figures, the newest last, how many pieces they were gathered from, and whether
    records still add to it."""

    def __init__(self):
        self.figures = []
        self.pieces = 0
        self.is_open = True

    def count(self, pieces):
        """Counts what a record adds."""
        if self.pieces + pieces > MOST_PIECES:
            raise TooManyPieces
        self.pieces += pieces

    def open_figure(self):
        """The newest figure, if it is open: no other is."""
        if self.figures and self.figures[-1].state == OPEN:
            return self.figures[-1]
        return None

    def leave(self, state):
        """Ends or closes the open figure, if there is one."""
        figure = self.open_figure()
        if figure:
            figure.state = state

    def go_on(self, places):
        """Places behind those of the open figure; where none is open they begin one."""
        figure = self.open_figure()
        if figure:
            figure.places += places
        else:
            self.figures.append(Figure(places, OPEN))

    def add(self, lists, state):
        """A figure for each list of places, behind which no older one is open."""
        for places in lists:
            self.leave(ENDED)
            self.figures.append(Figure(places, state))

    def check_points(self):
        """Its points aren't more than a drawing may have."""
        if sum(len(figure.places) for figure in self.figures) > MOST_POINTS:
            raise TooManyEdges
