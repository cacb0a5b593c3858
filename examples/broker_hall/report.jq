# A message, as `mosquitto_sub -F %j` prints it, as a report of the entity that its topic names. Topic and payload are data: whatever they
# hold, the line is one report, or there is none, and standard error tells why. A payload that is a JSON map with a `state` gives that
# state, with its other keys as attributes; any other is the state itself.

def dropped(why): [why, .topic] | debug | empty;

# A number that Hearth does not read is handed on as a text.
def readable: walk(if type == "number" and (fabs > 1e12 or (tojson | test("[eE]"))) then tojson else . end);

def attributed: try fromjson catch null | select(type == "object" and (.state | type | . == "string" or . == "number" or . == "boolean"));

((.topic | capture("\\Ahome/state/(?<id>[a-z0-9_]+\\.[a-z0-9_]+)\\z").id) // null) as $entity
| if $entity == null then dropped("no entity")
  elif .payloadlen == 0 then dropped("no payload")
  # (bytes that are no UTF-8 have become other characters here, and a NUL has cut the rest off)
  elif (.payload | utf8bytelength) != .payloadlen or (.payload | contains("\ufffd")) then dropped("no text")
  else .payload | [attributed] as [$map]
      | {report: $entity} + if $map then {state: ($map.state | tostring), attributes: ($map | del(.state) | readable)} else {state: .} end
  end
