import { demangle } from 'msvc-demangler';

console.log(demangle('?x@ns@@3HA'));
