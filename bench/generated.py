# SPDX-License-Identifier: Apache-2.0
"""Texts of schemas for the timings, made by their size."""
import json

from measure import LIMIT


def generated(n):
    """The schema of a size on which the program's `bench` works."""
    lines = []
    for i in range(1, n + 1):
        lines.append(f"type T{i} = Long;" if i % 16 == 1 else f"type T{i} = Set<T{i - 1}>;")
        within = f" in E{i // 2}" if i > 1 else ""
        lines.append(f"entity E{i}{within} = {{ \"t\": T{i} }};")
        lines.append(f"action \"a{i}\" appliesTo {{ principal: E{i}, resource: E1 }};")
    return "\n".join(lines) + "\n"


EVERY = ("namespace N{i} {{ type T = {{ a: Long, \"b\"?: Set<{{ c: E }}> }}; entity A in [C] = "
         "{{ a: T, b: Set<String>, }} tags Long; entity C, E; entity F enum [\"p\", \"q\"]; action r; "
         "action \"s t\" in [r] appliesTo {{ principal: [A, C], resource: F, context: {{ ip: ipaddr }} }}; }}\n")


def every_form(size=LIMIT):
    """Namespaces with declarations of every form, as many as fit."""
    pieces, length, i = [], 0, 0
    while True:
        piece = EVERY.format(i=i)
        if length + len(piece) > size:
            return "".join(pieces)
        pieces.append(piece)
        length += len(piece)
        i += 1


DEPARTMENT = '''\
// What the {word} department keeps, and who may work with it.
namespace Company::{name} {{
  /// Where a person or a building can be reached.
  type Address = {{
    street: String,
    city: String,
    postalCode: String,
    country?: String,
  }};
  type Contact = {{
    email: String,
    phone?: String,
    address: Address,
  }};

  // People and the groups they belong to.
  entity Team in [Department] = {{
    title: String,
    lead?: Employee,
  }};
  entity Department {{
    title: String,
    budget: Long,
  }};
  @doc("Somebody who works in the company.")
  entity Employee in [Team, Department] = {{
    name: String,
    contact: Contact,
    hiredOn: datetime,
    clearance: Long,
    manager?: Employee,
    networks: Set<ipaddr>,
    preferences: {{
      language: String,
      notifications: {{ byEmail: Bool, byPhone: Bool }},
    }},
  }} tags Set<String>;

  // Documents and where they lie.
  entity Folder in [Folder] = {{
    owner: Employee,
    createdOn: datetime,
    isArchived: Bool,
  }};
  entity Document in [Folder] = {{
    owner: Employee,
    title: String,
    readers: Set<Team>,
    editors: Set<Team>,
    labels: Set<String>,
    history: Set<{{
      changedBy: Employee,
      changedOn: datetime,
      comment?: String,
    }}>,
  }} tags String;
  entity Status enum ["draft", "published", "withdrawn"];

  // What may be done.
  action readOnly;
  action viewDocument, listFolder in [readOnly] appliesTo {{
    principal: [Employee, Team],
    resource: [Document, Folder],
    context: {{
      authenticated: Bool,
      sourceAddress: ipaddr,
      requestedOn: datetime,
    }},
  }};
  action editDocument, deleteDocument appliesTo {{
    principal: Employee,
    resource: Document,
    context: {{
      authenticated: Bool,
      reason?: String,
    }},
  }};
}}

'''

DEPARTMENTS = ("Sales", "Research", "Finance", "Legal", "Support", "Logistics", "Marketing", "Production")


def realistic(size=LIMIT):
    """A schema as people lay one out, with comments, of as many departments as fit."""
    pieces, length, i = [], 0, 0
    while True:
        name = DEPARTMENTS[i % len(DEPARTMENTS)]
        piece = DEPARTMENT.format(word=name.lower(), name=f"{name}{i // len(DEPARTMENTS) + 1}")
        if length + len(piece) > size:
            return "".join(pieces)
        pieces.append(piece)
        length += len(piece)
        i += 1


def plain(n):
    """Declarations of entity types, one below the other."""
    return "".join(f"entity Entity{i} {{ name: String, next: Entity{(i + 1) % n} }};\n" for i in range(n))


def short(n):
    """Declarations of nothing but a name."""
    return "".join(f"entity E{i};\n" for i in range(n))


def many_names(n):
    return "entity " + ", ".join(f"Name{i}" for i in range(n)) + " { a: Long };"


def many_parents(n):
    ids = [f"\"action{i}\"" for i in range(n)]
    return f"action a in [{', '.join(ids)}]; action {', '.join(ids)};"


def many_attributes(n):
    return "entity E { " + ", ".join(f"attribute{i}: Long" for i in range(n)) + " };"


def records(types, attributes):
    """Entity types of so many attributes each, a declaration for each."""
    return "".join(f"entity E{i} {declared(attributes)};\n" for i in range(types))


def one_record(types, attributes):
    """The same in one declaration."""
    return "entity " + ", ".join(f"E{i}" for i in range(types)) + f" {declared(attributes)};"


def declared(attributes):
    return "{ " + ", ".join(f"attribute{i}: String" for i in range(attributes)) + " }"


def many_namespaces(n):
    return "".join(f"namespace N{i} {{ entity E {{ a: Long, e: E }}; }}\n" for i in range(n))


def across(n, spaces):
    """As many entity types, common types and actions, in so many namespaces."""
    pieces = []
    for k in range(spaces):
        inside = "".join(f"entity E{i} {{ t: T{i} }}; type T{i} = Long; action a{i} appliesTo "
                         f"{{ principal: E{i}, resource: E{i} }};\n" for i in range(k, n, spaces))
        pieces.append(f"namespace N{k} {{\n{inside}}}\n")
    return "".join(pieces)


def doublings(use):
    """Sixty common types, each with two attributes of the one before, and a use of the last."""
    types = "".join(f"type T{i} = {{ a: T{i - 1}, b: T{i - 1} }};\n" for i in range(1, 61))
    return "type T0 = { a: Long };\n" + types + use


def chain(n):
    return "".join(f"type T{i} = T{i + 1};\n" for i in range(n - 1)) + f"type T{n - 1} = Long; entity E {{ x: T0 }};"


def star(n):
    return "".join(f"type T{i} = Set<Last>;\n" for i in range(n - 1)) + "type Last = Long; entity E { x: T0 };"


def cycle(n):
    return "".join(f"type T{i} = Set<T{(i + 1) % n}>;\n" for i in range(n))


def cycles_behind(n):
    """A chain of common types, each of which is also in a cycle of two."""
    inner = "".join(f"type A{i} = {{ b: B{i}, next: A{i + 1} }}; type B{i} = {{ a: A{i} }};\n" for i in range(n - 1))
    return inner + f"type A{n - 1} = {{ b: B{n - 1} }}; type B{n - 1} = {{ a: A{n - 1} }};\n"


def one_type(n):
    """A record of many attributes of one common type."""
    return "type T = { a: Long };\nentity E { " + ", ".join(f"attribute{i}: T" for i in range(n)) + " };"


def undefined(n):
    return "".join(f"entity E{i} {{ a: U{i} }};\n" for i in range(n))


def unused(n):
    return "".join(f"type T{i} = {{ a: Long, b: Set<String> }};\n" for i in range(n))


def applies(principals, resources):
    """One action on so many principals and resources."""
    ps = ", ".join(f"P{i}" for i in range(principals))
    rs = ", ".join(f"R{i}" for i in range(resources))
    return f"entity {ps}; entity {rs}; action a appliesTo {{ principal: [{ps}], resource: [{rs}] }};"


def json_of(definitions):
    return json.dumps({"": {"commonTypes": definitions.get("types", {}), "entityTypes": definitions.get("entities", {}),
                            "actions": definitions.get("actions", {})}})


def json_declarations(n):
    """Entity types of three attributes in JSON, each in the one of half its number."""
    entities = {}
    for i in range(1, n + 1):
        shape = {"type": "Record", "attributes": {"name": {"type": "String"}, "age": {"type": "Long", "required": False},
                                                  "next": {"type": "Set", "element": {"type": "Entity", "name": f"E{i}"}}}}
        entities[f"E{i}"] = {"memberOfTypes": [f"E{max(i // 2, 1)}"], "shape": shape}
    return json_of({"entities": entities})


def json_keys(n):
    attributes = {f"attribute{i}": {"type": "Long"} for i in range(n)}
    return json_of({"entities": {"E": {"shape": {"type": "Record", "attributes": attributes}}}})


def json_array(n):
    entities = {f"E{i}": {} for i in range(n)}
    entities["E"] = {"memberOfTypes": list(entities)}
    return json_of({"entities": entities})


def json_deep(n):
    """Common types of sets within sets."""
    ty = {"type": "Long"}
    for _ in range(n):
        ty = {"type": "Set", "element": ty}
    return json_of({"types": {f"T{i}": ty for i in range(100)}})


def json_full():
    """As many declarations in JSON as fit in the program's limit."""
    n = LIMIT // len(json_declarations(1000)) * 1000
    while len(json_declarations(n)) > LIMIT:
        n -= 500
    return n, json_declarations(n)


# ---- objects in JSON that commands review

COMPANY = ("entity Team, Folder; entity User in [Team] { name: String, age?: Long, friends: Set<User> } tags String;"
           " action view, edit appliesTo { principal: [Team, User], resource: [Folder, User], context: { ip?: String } };")


def reference(ty, name):
    return {"type": ty, "id": name}


def entities(n):
    """So many entities, each with a friend, a parent and a tag."""
    members = [{"uid": reference("User", f"u{i}"), "attrs": {"name": f"n{i}", "age": i, "friends": [reference("User", f"u{i // 2}")]},
                "parents": [reference("Team", f"t{i % 100}")], "tags": {"k": "v"}} for i in range(n)]
    return json.dumps({"schema": COMPANY, "entities": members})


def requests(n):
    """So many requests."""
    asked = [{"principal": reference("User", f"u{i}"), "action": reference("Action", ("view", "edit")[i % 2]),
              "resource": reference(("Folder", "User")[i % 2], f"r{i}"), "context": {"ip": "10.0.0.1"}} for i in range(n)]
    return json.dumps({"schema": COMPANY, "requests": asked})


def both(n):
    """A generated schema as the old and as the new one."""
    return json.dumps({"old": generated(n), "new": generated(n)})


def one_namespace_each(n):
    """So many schemas of a namespace each."""
    return json.dumps({"schemas": [EVERY.format(i=i).strip() for i in range(n)]})


def one_namespace_in_all(n):
    """So many schemas with a declaration in one namespace each."""
    return json.dumps({"schemas": [f"namespace N {{ entity E{i} in [F] {{ a: Long }}; }}" for i in range(n)]})
