"""Orders of tiers and policies as whole numbers. Calico's `order` is a float, and only how orders compare counts."""
import math

# Kubernetes' NetworkPolicies have this order, and stand among Calico's policies.
KUBERNETES_ORDER = 1000
LEAST, MOST = -2 ** 63, 2 ** 63 - 1
POLICIES = ("GlobalNetworkPolicy", "NetworkPolicy")


class Orders:
    """What whole numbers stand for the orders of these resources, with equal ones for equal orders."""

    def __init__(self, resources):
        policies = [order_of(it) for it in resources if it.get("kind") in POLICIES]
        self.of_policies = whole_numbers(policies, KUBERNETES_ORDER)
        self.of_tiers = whole_numbers([order_of(it) for it in resources if it.get("kind") == "Tier"])

    def of(self, resource):
        """The whole number for a resource's order; what is no number stays."""
        order = order_of(resource)
        numbers = self.of_tiers if resource.get("kind") == "Tier" else self.of_policies
        return numbers.get(order, order) if is_number(order) else order


def order_of(resource):
    spec = resource.get("spec")
    return spec.get("order") if isinstance(spec, dict) else None


def is_number(value):
    if isinstance(value, float):
        return math.isfinite(value)
    return isinstance(value, int) and not isinstance(value, bool)


def whole_numbers(orders, fixed=None):
    """Each order and its whole number, which is itself where all of them are whole. Else the numbers compare as the
    orders do, also with the one that is fixed, and an order that is whole and has room beside it stays."""
    values = sorted({order for order in orders if is_number(order)})
    if all(is_whole(order) for order in values):
        return {order: int(order) for order in values}
    made = {} if fixed is None else {fixed: fixed}
    least, most = LEAST + len(values), MOST - len(values)
    last = fixed
    for order in reversed([order for order in values if fixed is not None and order < fixed]):
        made[order] = last = min(last - 1, max(math.ceil(order), least))
    last = least - 1 if fixed is None else fixed
    for order in (order for order in values if fixed is None or order > fixed):
        made[order] = last = max(last + 1, min(math.floor(order), most))
    return made


def is_whole(order):
    return order == int(order) and LEAST <= order <= MOST
