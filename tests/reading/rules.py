"""The rules under which a file is read: a profile, and what is allowed under it."""

from typing import NamedTuple

from reference.pixels import fine_parts


class Rules(NamedTuple):
    """Whether the profile is that of printing, and whether it allows the deletion of objects that are selected, and EMF+ alone."""

    is_print: bool = False
    held_deletion: bool = False
    emf_plus: bool = False

    @property
    def allowed(self):
        """The number of what is allowed in a certificate of the print profile; a certificate of core has none."""
        return self.held_deletion + 2 * self.emf_plus if self.is_print else None

    def number(self):
        """The number by which a request gives these rules."""
        return 4 + self.allowed if self.is_print else 0

    def words(self):
        """The options that give these rules to a command."""
        names = [name for name, given in (("held-deletion", self.held_deletion), ("emf-plus", self.emf_plus)) if given]
        return ["--profile", "print", *(word for name in names for word in ("--allow", name))] if self.is_print else []

    def parts(self, frame):
        """How many parts of the plane a unit of a frame has."""
        return fine_parts(frame) if self.is_print else 1

    @property
    def allows_held_deletion(self):
        """Whether a selected object may be deleted."""
        return self.is_print and self.held_deletion


CORE = Rules()
PRINT = Rules(is_print=True)
