"""The engines in which rung (c) of .ci/page plays, by the word that stands for each."""
from driver import Chromium
from firefox import Firefox
from webkit import WebKit

ENGINES = {'chromium': Chromium, 'firefox': Firefox, 'webkit': WebKit}


def lacking(engine):
    """What an engine needs and this machine has not."""
    return [what for what, there in ENGINES[engine].needs.items() if not there]
