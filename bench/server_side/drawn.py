"""Objects and commands, drawn: of a Deployment, and of a kind that a CustomResourceDefinition defines."""

DEPLOYMENT = {
    "replicas": [1, 2, 3],
    "paused": [True, False],
    "strategy": {"type": ["RollingUpdate", "Recreate"], "rollingUpdate": {"maxSurge": [1, 2, "25%"], "maxUnavailable": [1, "1"]}},
    "template": {
        "metadata": {"labels": {"a": ["1", "2"], "b": ["1", "2"]}},
        "spec": {
            "containers": (
                "name",
                ["app", "log", "side"],
                {
                    "image": ["i:1", "i:2"],
                    "command": [["run"], ["run", "-v"]],
                    "env": ("name", ["A", "B"], {"value": ["1", "2"]}),
                    "resources": {"limits": {"cpu": ["1", "500m"], "memory": ["1Gi", "2Gi"]}},
                    "livenessProbe": {"periodSeconds": [5, 10], "httpGet": {"port": [80, "http"], "path": ["/", "/x"]}},
                },
            ),
            "nodeSelector": [{"disk": "ssd"}, {"disk": "hdd", "zone": "a"}],
            "terminationGracePeriodSeconds": [10, 30],
        },
    },
}
ROUTE = {
    "name": ["a", "b"],
    "order": [1, 2.5],
    "backends": ("port", [80, "80", "http"], {"weight": [1, 2], "options": {"retry": [True, False], "after": ["1s", "2s"]}}),
    "codes": {"set": [200, "4xx", 503]},
    "limits": {"cpu": [1, 2], "memory": [1, 2]},
    "rules": [[{"from": "a"}], [{"from": "b"}, {"from": "a"}]],
}
STATUS = {
    "ready": [True, False],
    "seen": [1, 2, 3],
    "load": [0.5, 1],
    "conditions": ("type", ["Ready", "Bound", "Up"], {"status": ["True", "False"], "reason": ["A", "B"]}),
    "ports": {"set": [80, "80", "http"]},
}
STATUS_SCHEMA = {
    "type": "object",
    "properties": {
        "ready": {"type": "boolean"},
        "seen": {"type": "integer"},
        "load": {"type": "number"},
        "conditions": {
            "type": "array",
            "x-kubernetes-list-type": "map",
            "x-kubernetes-list-map-keys": ["type"],
            "items": {"type": "object", "properties": {name: {"type": "string"} for name in ("type", "status", "reason")}},
        },
        "ports": {"type": "array", "x-kubernetes-list-type": "set", "items": {"x-kubernetes-int-or-string": True}},
    },
}
ROUTE_SCHEMA = {
    "type": "object",
    "properties": {
        "spec": {
            "type": "object",
            "properties": {
                "name": {"type": "string"},
                "order": {"type": "number"},
                "backends": {
                    "type": "array",
                    "x-kubernetes-list-type": "map",
                    "x-kubernetes-list-map-keys": ["port"],
                    "items": {
                        "type": "object",
                        "properties": {
                            "port": {"x-kubernetes-int-or-string": True},
                            "weight": {"type": "integer"},
                            "options": {"type": "object", "properties": {"retry": {"type": "boolean"}, "after": {"type": "string"}}},
                        },
                    },
                },
                "codes": {"type": "array", "x-kubernetes-list-type": "set", "items": {"x-kubernetes-int-or-string": True}},
                "limits": {"type": "object", "additionalProperties": {"type": "integer"}},
                "rules": {"type": "array", "items": {"type": "object", "properties": {"from": {"type": "string"}}}},
            },
        }
    },
}


def without_nulls(value):
    """A copy of a value without the nulls that a server may leave where something was taken out."""
    if isinstance(value, dict):
        return {name: without_nulls(part) for name, part in value.items() if part is not None}
    return [without_nulls(item) for item in value] if isinstance(value, list) else value


class Drawer:
    """Draws values of a shape: a list of values to choose of, a dict of fields, a tuple of a key, its values and the other fields
    of items, or the values of a set."""

    def __init__(self, random, shape):
        self.random = random
        self.shape = shape

    def value(self, shape, often):
        if isinstance(shape, list):
            return self.random.choice(shape)
        if isinstance(shape, tuple):
            return self.items(shape, often)
        if "set" in shape:
            return self.random.sample(shape["set"], self.random.randint(0, len(shape["set"])))
        return {name: self.value(part, often) for name, part in shape.items() if self.random.random() < often}

    def items(self, shape, often):
        key, names, fields = shape
        chosen = self.random.sample(names, self.random.randint(0 if self.random.random() < 0.1 else 1, len(names)))
        return [{key: name} | self.value(fields, often) for name in chosen]

    def spec(self, often):
        return self.value(self.shape, often)

    def edited(self, spec):
        """The spec after one edit: something is set, added or taken out."""
        spec = without_nulls(spec)
        self.edit(self.shape, spec)
        return spec

    def edit(self, shape, value):
        name = self.random.choice(list(shape))
        part = shape[name]
        if name not in value or isinstance(part, list):
            value[name] = self.value(part, 0.6)
        elif self.random.random() < 0.1:
            del value[name]
        elif isinstance(part, tuple):
            self.edit_items(part, value, name)
        elif "set" in part:
            value[name] = self.value(part, 1)
        else:
            self.edit(part, value[name])

    def edit_items(self, shape, value, name):
        items, absent = value[name], [one for one in shape[1] if all(item[shape[0]] != one for item in value[name])]
        draw = self.random.random()
        if absent and (draw < 0.2 or not items):
            items.insert(self.random.randint(0, len(items)), {shape[0]: self.random.choice(absent)} | self.value(shape[2], 0.5))
        elif items and draw < 0.35:
            items.pop(self.random.randrange(len(items)))
        elif items and draw < 0.45:
            self.random.shuffle(items)
        elif items:
            self.edit(shape[2], self.random.choice(items))
