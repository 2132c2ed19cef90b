from .test_map import *  # noqa: F401, F403
from .test_points import *  # noqa: F403
from .test_surface import *  # noqa: F403
