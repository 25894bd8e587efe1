# Reads the Rattle sources and writes C that compiles only if silverpoise.h agrees with them: each #[repr(C)] struct with the
# same fields at the same offsets, each exported function with the same types. It reads the layout that rt fmt gives.

# The C type of a Rattle type that is no reference.
function c_type(type) {
  if (type == "bool") return "bool"
  if (type == "usize") return "size_t"
  if (type ~ /^u[0-9]+$/) return "uint" substr(type, 2) "_t"
  return "Silverpoise" type
}

# The C types of a parameter: a slice is a pointer and a count.
function c_parameter(type,    const) {
  if (type !~ /^&/) return c_type(type)
  const = type ~ /^&mut / ? "" : "const "
  sub(/^&(mut )?/, "", type)
  if (type !~ /^\[/) return const c_type(type) " *"
  return const c_type(substr(type, 2, length(type) - 2)) " *, size_t"
}

function write_prototype(text,    name, result, count, parameters, i, out) {
  name = text
  sub(/^pub extern "C" fn /, "", name)
  sub(/\(.*/, "", name)
  result = text
  sub(/.*\) -> /, "", result)
  sub(/^[^(]*\( */, "", text)
  sub(/,? *\) -> .*/, "", text)
  count = split(text, parameters, / *, */)
  for (i = 1; i <= count; i++) {
    sub(/^[a-z_]+: /, "", parameters[i])
    out = out (i > 1 ? ", " : "") c_parameter(parameters[i])
  }
  print c_type(result) " " name "(" out ");"
}

function write_field(field, type,    array) {
  if (type ~ /^\[/) {
    array = type
    gsub(/^.*; |\]$/, "", array)
    array = "[" array "]"
    gsub(/^\[|;.*/, "", type)
  }
  fields = fields "  " c_type(type) " " field array ";\n"
  checks = checks "SAME(" name ", " c_type(name) ", " field ")\n"
}

BEGIN {
  print "#include \"silverpoise.h\""
  print "#define SAME(ours, theirs, field) \\"
  print "  _Static_assert(offsetof(struct ours, field) == offsetof(theirs, field), #theirs \".\" #field); \\"
  print "  _Static_assert(sizeof((struct ours){0}.field) == sizeof((theirs){0}.field), #theirs \".\" #field);"
  print "#define SAME_SIZE(ours, theirs) _Static_assert(sizeof(struct ours) == sizeof(theirs), #theirs);"
}

/^pub extern "C" fn / { signature = ""; in_signature = 1 }
in_signature {
  line = $0
  sub(/^ +/, "", line)
  signature = signature (signature == "" || signature ~ /\($/ ? "" : " ") line
}
in_signature && /\) -> [A-Za-z0-9]+$/ { write_prototype(signature); in_signature = 0 }

/^#\[repr\(C\)\]$/ { exported = 1 }
/^pub struct / && exported { name = $3; fields = checks = ""; in_struct = 1; exported = 0 }
in_struct && /^    pub / {
  field = $2
  sub(/:/, "", field)
  type = $0
  sub(/^[^:]*: /, "", type)
  sub(/,$/, "", type)
  write_field(field, type)
}
in_struct && /^}/ {
  print "struct " name " {\n" fields "};"
  printf "%s", checks
  print "SAME_SIZE(" name ", " c_type(name) ")"
  in_struct = 0
}
