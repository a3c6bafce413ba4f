"""Which rule is the nearest one to a class: for warnings and reasons, beside what the program decides."""


def depth(scenario, rule, name):
    """The steps from a class up to the first one that a rule matches, or None."""
    for steps, each in enumerate(scenario.ancestors(name)):
        if rule.by in each if rule.is_pattern else rule.by == each:
            return steps
    return None


def winner(scenario, rules, name):
    """The place of the nearest rule, of equally near ones the first, or None."""
    best = None
    for number, rule in enumerate(rules):
        steps = depth(scenario, rule, name)
        if steps is not None and (best is None or steps < best[0]):
            best = (steps, number)
    return best[1] if best else None
