"""What calls raise, by the names that TraCI has for it."""


class TraCIException(Exception):
    """A call that cannot be answered; the run goes on."""


class FatalTraCIError(Exception):
    """The run cannot go on."""


class NotHere(TraCIException, AttributeError):
    """A call of TraCI that streetsim has nothing for; the text says what to do instead."""
