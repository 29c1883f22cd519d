import os

import numpy as np
import pytest
from hypothesis import Phase, settings

settings.register_profile("package", deadline=None, max_examples=40)
# For mistakes that are planted: the same examples at every run, and what fails need not shrink.
settings.register_profile("mistakes", settings.get_profile("package"), phases=(Phase.explicit, Phase.generate), database=None,
                          derandomize=True)
settings.load_profile(os.environ.get("HYPOTHESIS_PROFILE", "package"))


@pytest.fixture
def rng():
    return np.random.default_rng(7)
