"""Limits of a case, as the library has them: for what numbers can't say, and for what an error says. `.ci/limits` compares them with the proved code."""
FEWEST_MEMBERS = 2
MOST_MEMBERS = 12
MOST_RIDERS = 10
MOST_PLACES = 12
MOST_GOODS = 24
MOST_RENT = 10_000_000
MOST_FARE_CENTS = 1_000_000
WHOLE_POINTS = 1000
MOST_STEPS = 200_000
USUAL_STEPS = 100_000
MOST_ESTATE_STEPS = 1_000_000
USUAL_ESTATE_STEPS = 20_000
LONGEST_NAME = 40
