"""Links: a model of what each one carries, told by the links that it came from, and written from docs/FORMATS.md alone.

A view is whatever has `pools` and `accounts`, each a dict from a name to whether it is enabled.
"""
LONGEST_LIFE, DEEPEST = 3600, 8


def is_enabled(table, name):
    return table.get(name, False)


class Federated:
    """A link to a subject token from outside: its words, the moment when that token expires, who it is for, and who may act for them."""

    depth, accounts, bounds, act = 1, [], [], []

    def __init__(self, at, scope, until, who, may_act):
        self.at, self.scope, self.who, self.may_act = at, scope, who, may_act
        self.exp, self.pools, self.scopes = min(until, at + LONGEST_LIFE), [who['pool']], [scope]

    def is_live(self, view, at):
        return at < self.exp and is_enabled(view.pools, self.who['pool'])

    def narrowings(self):
        """The words and the boundary, or none, of each link from here to the root."""
        yield self.scope, None


class Derived:
    """A link to another, its parent; what it doesn't say itself is its parent's."""

    boundary = None

    def __init__(self, at, scope, parent):
        self.at, self.scope, self.parent = at, scope, parent

    @property
    def exp(self):
        return min(self.parent.exp, self.at + LONGEST_LIFE)

    @property
    def who(self):
        return self.parent.who

    @property
    def act(self):
        return self.parent.act

    @property
    def may_act(self):
        return self.parent.may_act

    @property
    def depth(self):
        return self.parent.depth + 1

    @property
    def pools(self):
        return self.parent.pools

    @property
    def accounts(self):
        return self.parent.accounts

    @property
    def scopes(self):
        return self.parent.scopes + [self.scope]

    @property
    def bounds(self):
        return self.parent.bounds

    def is_live(self, view, at):
        return at < self.exp and self.parent.is_live(view, at)

    def narrowings(self):
        yield self.scope, self.boundary
        yield from self.parent.narrowings()


class Narrow(Derived):
    """A link whose token may do no more: its words, and the rules of its boundary or none."""

    def __init__(self, at, scope, parent, boundary):
        super().__init__(at, scope, parent)
        self.boundary = boundary

    @property
    def bounds(self):
        return self.parent.bounds + ([] if self.boundary is None else [self.boundary])


class Impersonate(Derived):
    """A link whose token is a service account's: the accounts on the way to it, it being the last, and how long it lasts."""

    may_act = []

    def __init__(self, at, scope, parent, accounts, lifetime):
        super().__init__(at, scope, parent)
        self.through, self.lifetime = accounts, lifetime

    @property
    def exp(self):
        return min(self.parent.exp, self.at + self.lifetime)

    @property
    def who(self):
        return {'account': self.through[-1]}

    @property
    def accounts(self):
        return self.parent.accounts + self.through

    def is_live(self, view, at):
        return super().is_live(view, at) and all(is_enabled(view.accounts, account) for account in self.through)


class Delegate(Derived):
    """A link whose token is its subject's, which is its parent, used by an actor: a further link, and the actor's name."""

    def __init__(self, at, scope, subject, actor, name):
        super().__init__(at, scope, subject)
        self.actor, self.name = actor, name

    @property
    def exp(self):
        return min(super().exp, self.actor.exp)

    @property
    def act(self):
        return [self.name] + self.parent.act

    @property
    def may_act(self):
        return self.parent.may_act[1:]

    @property
    def depth(self):
        return max(self.parent.depth, self.actor.depth) + 1

    @property
    def pools(self):
        return self.parent.pools + self.actor.pools

    @property
    def accounts(self):
        return self.parent.accounts + self.actor.accounts

    def is_live(self, view, at):
        return super().is_live(view, at) and self.actor.is_live(view, at)


def carries(link):
    """What the gate decides a link's token by, beside its end."""
    return {'accounts': link.accounts, 'bounds': link.bounds, 'pools': link.pools, 'scopes': link.scopes, 'who': link.who}
