# Turns a JSON document into the text of a document. What has no counterpart there is a fault with its path: one line on
# standard error, status 1, and no text.
# Usage: jq -rn [--arg maps KIND] -f to_text.jq JSON
# Objects become maps of this kind: kept (their keys stay in order), ordered or hashed (their keys are sorted by bytes).
include "escapes" {search: "./"};

# ends with a line on standard error
def ended($line; $status): "to_text: \($line)\n" | halt_error($status);

# ends with the fault of what lies at a path
def fault($name; $path):
  $path
  | if . == [] then "the root" else map(if type == "number" then "#\(.)" else "'" + escaped end) | join(" ") end
  | ended("\($name) at \(.)"; 1);

# the head of a number
def number($path):
  # a sum is a double: later versions of jq hold the digits of a number besides
  (. + 0)
  | if isnan then fault("NotANumber"; $path)
    # from here on two whole numbers may be one double
    elif fabs >= 9007199254740992 then fault("Inexact"; $path)
    elif . != floor then fault("Fraction"; $path)
    else "int \(.)"
    end;

# the lines of what lies at a path, which leads through as many lists and maps as it has steps
def lines($maps; $path):
  if type == "boolean" then "bool \(.)"
  elif type == "number" then number($path)
  elif type == "string" then "text '" + escaped
  elif $path | length >= 64 then fault("TooDeep"; $path)
  elif type == "null" then "none"
  elif type == "array" then "list \(length)", (range(length) as $at | .[$at] | lines($maps; $path + [$at]))
  else "\($maps) \(length)",
    ((if $maps == "kept" then keys_unsorted else keys end)[] as $key
      | "'" + ($key | escaped), (.[$key] | lines($maps; $path + [$key])))
  end;

($ARGS.named.maps // "kept") as $maps
| if $maps | . != "kept" and . != "ordered" and . != "hashed" then
    ended("usage: jq -rn [--arg maps kept|ordered|hashed] -f to_text.jq JSON"; 2)
  else [limit(2; inputs)] end
| if length == 0 then ended("NoDocument"; 1)
  elif length == 2 then ended("SecondDocument"; 1)
  # all lines before the first is printed
  else [.[0] | lines($maps; [])][]
  end
