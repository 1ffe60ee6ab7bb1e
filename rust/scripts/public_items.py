"""The public items, impls and auto traits of a crate, by rustdoc's JSON, each as one text."""
import json


def plain(value):
    """The value without ids and without the crates of paths, which two crates have apart.

    `use<..>` goes too: edition 2024 needs it for what a returned type captures in edition 2021.
    """
    if isinstance(value, list):
        return [plain(item) for item in value if not is_capture(item)]
    if not isinstance(value, dict):
        return value
    if "resolved_path" in value:
        path = value["resolved_path"]
        return {"path": last_word(path), "args": plain(path.get("args"))}
    if isinstance(value.get("trait"), dict) and "path" in value["trait"]:
        bound = value["trait"]
        value = {**value, "trait": {"path": last_word(bound), "args": plain(bound.get("args"))}}
    return {key: plain(item) for key, item in value.items() if key not in ("id", "span")}


def is_capture(bound):
    return isinstance(bound, dict) and list(bound) == ["use"] and isinstance(bound["use"], list)


def last_word(path):
    return (path.get("path") or path.get("name", "")).split("::")[-1]


def text(value):
    return json.dumps(plain(value), sort_keys=True)


class Items:
    def __init__(self, document):
        self.index = document["index"]
        self.found = set()
        self.seen = set()
        root = self.index[str(document["root"])]
        self.walk("", root["inner"]["module"]["items"])

    def item(self, number):
        return self.index.get(str(number))

    def add(self, kind, path, *values):
        self.found.add(" ".join([kind, path, *map(text, values)]))

    def walk(self, path, numbers):
        for number in numbers:
            item = self.item(number)
            if item is None or item["visibility"] not in ("public", "default"):
                continue
            ((kind, inner),) = item["inner"].items()
            name = f"{path}::{item['name']}"
            if kind == "use":
                self.walk_use(path, inner)
            elif kind == "module":
                self.add("mod", name)
                self.walk(name, inner["items"])
            else:
                self.add_item(kind, name, inner)

    def walk_use(self, path, use):
        target = self.item(use["id"])
        if target is None:
            self.add("use", f"{path}::{use['name']}", use["source"])
        elif use["is_glob"]:
            self.walk(path, target["inner"].get("module", {}).get("items", []))
        elif use["id"] not in self.seen:
            self.seen.add(use["id"])
            self.walk(path, [use["id"]])

    def add_item(self, kind, name, inner):
        if kind == "function":
            self.add("fn", name, inner["sig"], inner["generics"], inner["header"])
        elif kind == "struct":
            self.add("struct", name, inner["generics"], self.public_fields(inner["kind"]))
            self.add_impls(name, inner["impls"])
        elif kind == "enum":
            self.add("enum", name, inner["generics"], [self.variant(it) for it in inner["variants"]])
            self.add_impls(name, inner["impls"])
        elif kind == "trait":
            members = [[self.item(it)["name"], self.item(it)["inner"]] for it in inner["items"]]
            self.add("trait", name, inner["generics"], inner["bounds"], members)
        elif kind == "type_alias":
            self.add("type", name, inner)
        elif kind == "constant":
            self.add("const", name, inner["type"])
        else:
            self.add(kind, name)

    def public_fields(self, kind):
        if not isinstance(kind, dict) or "plain" not in kind:
            return []
        fields = [self.item(number) for number in kind["plain"]["fields"]]
        return [field["name"] for field in fields if field and field["visibility"] == "public"]

    def variant(self, number):
        item = self.item(number)
        kind = item["inner"]["variant"]["kind"]
        if isinstance(kind, dict) and "tuple" in kind:
            kind = [self.field_type(field) for field in kind["tuple"]]
        elif isinstance(kind, dict) and "struct" in kind:
            fields = kind["struct"]["fields"]
            kind = {self.item(field)["name"]: self.field_type(field) for field in fields}
        return [item["name"], kind, [str(attribute) for attribute in item["attrs"]]]

    def field_type(self, number):
        return None if number is None else self.item(number)["inner"]["struct_field"]

    def add_impls(self, name, numbers):
        for number in numbers:
            block = self.item(number)["inner"]["impl"]
            if block.get("is_synthetic"):
                sign = "!" if block["is_negative"] else ""
                self.add("auto", name, sign + block["trait"]["path"])
            elif block.get("blanket_impl"):
                continue
            elif block["trait"] is None:
                self.add_members(name, block)
            else:
                bound, generics = {"trait": block["trait"]}, block["generics"]
                self.add("impl", name, bound, block["for"], generics)

    def add_members(self, name, block):
        for number in block["items"]:
            item = self.item(number)
            if item is None or item["visibility"] != "public":
                continue
            ((kind, inner),) = item["inner"].items()
            path = f"{name}::{item['name']}"
            if kind == "function":
                of = [block["for"], block["generics"]]
                self.add("fn", path, *of, inner["sig"], inner["generics"], inner["header"])
            elif kind == "assoc_const":
                self.add("const", path, inner["type"])


def items_of(document):
    return Items(document).found
