# Turns the LLVM module of a program into one for a static library: takes C's main away and adds, under the names that C has, the functions of `crate` that `names`
# lists (with blanks between), as the kit's own static library has them. Inside, such a function gets its parameters as C hands them over, a slice as pointer and length;
# a function that answers a struct gets the place for it first. C wants a struct of at most 16 bytes in two registers, and gives the place of a longer one. A struct of at
# most 16 bytes with a float in it would come back in other registers: there is none here.
BEGIN {
  count = split(names, each, " ")
  for (i = 1; i <= count; i++) wanted[each[i]] = 1
}

/^define i32 @main\(/ { in_main = 1 }
in_main {
  if ($0 == "}") in_main = 0
  next
}
{ print }

# define internal void @"crate::module::name"(ptr noundef %a0, ptr noundef %a1, i64 noundef %a2) #0 {
/^define internal (noundef )?(void|i8|i16|i32|i64) @"/ {
  split($0, quoted, "\"")
  path = quoted[2]
  name = path
  sub(/.*::/, "", name)
  if (index(path, crate "::") == 1 && name in wanted) {
    inside[name] = path
    result[name] = $3 == "noundef" ? $4 : $3
    types[name] = quoted[3]
    gsub(/[(]| noundef %a[0-9]+|[)].*/, "", types[name])
    if (types[name] !~ /^(ptr|i8|i16|i32|i64)(, (ptr|i8|i16|i32|i64))*$/) {
      print "exported: " name " takes " types[name] ": only slices and numbers are known here" > "/dev/stderr"
      exit 1
    }
    attributes[name] = $(NF - 1)
    if (result[name] == "void") opened = name
  }
}
# the function's first place is that of its answer
opened != "" && /%r0 = alloca \[/ {
  split($0, words, /[][ ]+/)
  size[opened] = words[5]
  opened = ""
}

END {
  for (i = 1; i <= count; i++) {
    if (!(each[i] in inside) || result[each[i]] == "void" && !(each[i] in size)) {
      print "exported: the module has no function " each[i] " whose answer is known" > "/dev/stderr"
      exit 1
    }
    export_one(each[i])
  }
}

function export_one(name,    small, parameters, given, count, type, k, first, kind) {
  first = result[name] == "void" ? 2 : 1
  small = first == 2 && size[name] <= 16
  kind = first == 1 ? result[name] : small ? "{ i64, i64 }" : "ptr"
  parameters = first == 2 && !small ? "ptr noundef %answer" : ""
  given = first == 2 ? "ptr %answer" : ""
  count = split(types[name], type, ", ")
  for (k = first; k <= count; k++) {
    parameters = parameters (parameters == "" ? "" : ", ") type[k] " noundef %p" k
    given = given (given == "" ? "" : ", ") type[k] " %p" k
  }
  print "\ndefine " kind " @" name "(" parameters ") " attributes[name] " {"
  if (small) print "  %answer = alloca [16 x i8], align 8"
  print "  " (first == 1 ? "%number = " : "") "call " result[name] " @\"" inside[name] "\"(" given ")"
  if (small) print "  %registers = load { i64, i64 }, ptr %answer, align 8"
  print "  ret " kind (first == 1 ? " %number" : small ? " %registers" : " %answer")
  print "}"
}
