"""Ctrl-C at each moment of a call at which Python looks for signals."""
import gc
import itertools
import sys


def is_interrupted(call, moment):
    """Whether KeyboardInterrupt ended the call: it comes at this moment of it, if it has so many, from 0 on. At each of them a
    function of Python begins in this thread, or one of C has ended. What is left of calls before isn't ended meanwhile."""
    left = itertools.count(moment, -1)

    def interrupt(frame, event, function):
        if event in ("call", "c_return") and next(left) == 0:
            sys.setprofile(None)
            raise KeyboardInterrupt

    gc.collect()
    gc.disable()
    sys.setprofile(interrupt)
    try:
        call()
    except KeyboardInterrupt:
        return True
    finally:
        sys.setprofile(None)
        gc.enable()
    return False
