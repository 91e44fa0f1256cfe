# Turns the text of a module for 64-bit memories into one that wasm2c takes, which knows 32-bit memories alone: loads
# and stores become calls of the operations of machine.c, with their constant offset as the last word, and what the
# memory begins with becomes the data of a memory that nothing else uses. An access that is left over has an address of
# the wrong type, so wat2wasm rejects the module.
s/^( *)(i32|i64)\.(load|store)([0-9_su]*) offset=([0-9]+)( align=[0-9]+)?(\)?)$/\1i64.const \5\n\1call $\2_\3\4\7/
s/^( *)(i32|i64)\.(load|store)([0-9_su]*)( align=[0-9]+)?(\)?)$/\1i64.const 0\n\1call $\2_\3\4\6/
s/^( *)memory\.(copy|fill)(\)?)$/\1call $memory_\2\3/
s/^  \(memory (\$[^ ]+) i64 /  (memory \1 /
s/^  \(data (\$[^ ]+) \(i64\.const /  (data \1 (i32.const /
/^  \(export "memory"/d
