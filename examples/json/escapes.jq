# The escapes of texts and keys in a document's text. Included by to_text.jq and to_json.jq.

# the parts of a text in one, with $between between each two
def joined($between): if length < 2 then .[0] // "" else [.[0], (.[1:][] | $between, .)] | add end;

# a text with $new in the place of each $old
def replaced($old; $new): split($old) | joined($new);

# the escaped form of a text
def escaped: replaced("\\"; "\\\\") | replaced("\n"; "\\n") | replaced(" "; "\\s");

# the text of an escaped form
def unescaped: split("\\\\") | map(replaced("\\n"; "\n") | replaced("\\s"; " ")) | joined("\\");
