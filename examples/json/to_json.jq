# Turns the text of a document, as cab_show prints it, into JSON on one line. A line that is not expected there is a
# fault: one line on standard error, status 1, and no JSON. (cab build finds every fault of a text, this filter does not.)
# Usage: cab_show ARCHIVE | jq -jn --rawfile text /dev/stdin -f to_json.jq
# Without --rawfile, by jq -R, jq 1.6 would lose characters of lines that are longer than its buffer.
include "escapes" {search: "./"};

# A state, after some of the lines, has:
#   line     the number of these lines
#   trees    the number of trees: those of the wholes, and the root
#   done     how many of them are complete
#   inside   the innermost list or map that is not complete, or null: how many items it has, where a key is an item
#            too, how many of them are left, its last character, and `outside`, the list or map around it
#   pieces   what the last line adds to the JSON: strings, a number for the tree of that whole, null where a tree ends

# ends with the fault of the last line
def fault($name): "to_json: line \(.line): \($name)\n" | halt_error(1);

# what is written before the next item
def separator:
  .inside
  | if . == null or .left == .items then "" elif .last == "}" and .left % 2 == 1 then ":" else "," end;

# after the last piece of an item
def completed:
  if .inside == null then .pieces += [null] | .done += 1
  elif .inside.left > 1 then .inside.left -= 1
  else .pieces += [.inside.last] | .inside = .inside.outside | completed
  end;

# after an item of one piece
def item($piece): .pieces = [separator, $piece] | completed;

# after the head of a list or of a map
def container($first; $last; $items):
  if $items == 0 then item($first + $last)
  else .pieces = [separator, $first] | .inside = {items: $items, left: $items, last: $last, outside: .inside}
  end;

# after a head
def node($line):
  ($line | split(" ")) as [$kind, $argument]
  | if ($kind == "text" or $kind == "shared") and $argument != null then item($argument[1:] | unescaped | tojson)
    elif $kind == "none" then item("null")
    elif $kind == "some" then .pieces = []
    elif $line == "bool true" or $line == "bool false" then item($argument)
    elif $argument // "" | test("^(0|-?[1-9][0-9]*)$") | not then fault("UnknownHead")
    elif $kind == "int" then item($argument)
    elif $kind == "list" then container("["; "]"; $argument | tonumber)
    elif $kind == "ordered" or $kind == "hashed" or $kind == "kept" then container("{"; "}"; 2 * ($argument | tonumber))
    elif $kind != "whole" then fault("UnknownHead")
    elif .done > ($argument | tonumber) then item($argument | tonumber)
    else fault("UnknownWhole")
    end;

# after a line
def line($line):
  .line += 1
  | if .done == .trees then fault("LineAfterEnd")
    elif .inside | . == null or .last == "]" or .left % 2 == 1 then node($line)
    elif $line | startswith("'") then item($line[1:] | unescaped | tojson)
    else fault("KeyExpected")
    end;

# the pieces of a tree, with those of the wholes in it
def written($trees): .[] | if type == "number" then $trees[.] | written($trees) else . end;

# what follows the last newline is no line
($text | if . == "" then [.] else split("\n") end) as $lines
| ($lines[0] | if test("^wholes [1-9][0-9]*$") then .[7:] | tonumber else 0 end) as $wholes
| {line: ([$wholes, 1] | min), trees: ($wholes + 1), done: 0, inside: null} as $start
| [foreach $lines[$start.line:-1][] as $line ($start; line($line); .pieces[])] as $pieces
| [range($pieces | length) as $at | select($pieces[$at] == null) | $at] as $ends
| if $ends | length <= $wholes then $start | .line = ($lines | length) | fault("EndTooEarly") else . end
| [range($wholes + 1) as $tree | $pieces[if $tree == 0 then 0 else $ends[$tree - 1] + 1 end:$ends[$tree]]] as $trees
| ($trees[-1] | written($trees)), "\n"
