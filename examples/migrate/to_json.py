import json, sys, yaml

class Texts(yaml.SafeLoader):
    """Numbers and dates stay texts, as the fields of envoyproxy/ratelimit take them."""

Texts.yaml_implicit_resolvers = {
    first: [kind for kind in kinds if kind[0].rsplit(":", 1)[1] in ("bool", "null", "merge")]
    for first, kinds in yaml.SafeLoader.yaml_implicit_resolvers.items()}
json.dump(yaml.load(sys.stdin, Texts), sys.stdout, indent=2)
print()
