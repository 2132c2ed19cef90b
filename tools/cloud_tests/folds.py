"""The fold that cloud_from takes, compared with that of pictures, over logs that are drawn."""

import random

from clouds.folding import LIVE, SUSPENDED, Fold
from drawing.held import Held
from drawing.log import Update, read_log

from .runs import HEADER, Clouds

LOGS = 60


def drawn_log(draw):
    """A log of all updates, in so small a space that most of them meet points."""
    extent, voxel = draw.choice([(3, 2), (20, 5), (300, 40), (2**40, 1_000_000)]), draw.choice([1, 7, 200])
    extent, edge = extent

    def place(beyond=0):
        return [draw.randint(-extent, extent + beyond) for _ in range(3)]

    def box():
        corners = list(zip(*(sorted((low, high)) for low, high in zip(place(1), place(1)))))
        return [*corners[0], *corners[1]]

    lines = [HEADER.replace("voxel 200", f"voxel {draw.choice([edge, voxel])}").rstrip()]
    for _ in range(draw.randint(1, 40)):
        word = draw.choice("add thin thin delete erase suspend restore expire pose near".split())
        count = range(draw.randint(1, 9))
        arguments = {
            "add": lambda: [at for _ in count for at in (*place(), draw.randrange(9))],
            "erase": lambda: [at for _ in count for at in place()],
            "expire": lambda: [draw.randrange(60)],
            "pose": lambda: [2 * extent, extent // 3, max(extent // 2, 1), *place()],
            "near": lambda: [3, *place()],
        }
        arguments["thin"] = arguments["add"]
        words = arguments.get(word, lambda: [at for _ in count for at in box()])()
        lines.append(" ".join(map(str, [f"@{draw.randint(1, 2)}", word, *words])))
    return "\n".join(lines) + "\n"


class Folds(Clouds):
    """Both find the same points live and suspended."""

    def test_what_is_live_is_what_pictures_show(self):
        draw = random.Random(5)
        for _ in range(LOGS):
            text = drawn_log(draw)
            log = read_log(text.encode())
            fold, held = Fold(log.voxel), Held(log.voxel)
            for update in log.commands:
                if isinstance(update, Update):
                    fold.update(update)
                    held.update(update)
            with self.subTest(log=text):
                due = [number for _, (place, shade) in sorted(held.live.items()) for number in (*place, shade)]
                self.assertEqual([number for piece in fold.live() for number in piece], due)
                self.assertEqual((fold.count(LIVE), fold.count(SUSPENDED)), (len(held.live), len(held.suspended)))
