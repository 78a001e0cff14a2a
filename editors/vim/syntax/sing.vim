" Sing#, as singcheck reads it. docs/LANGUAGE.md has the grammar.
if exists('b:current_syntax')
  finish
endif
let s:before = &cpoptions
set cpoptions&vim

syntax case match

syntax keyword singStructure contract message state one rep struct class
syntax keyword singModifier public private internal static
syntax keyword singType int bool byte void
syntax keyword singEnd Imp Exp
syntax keyword singOwner ExHeap Claims in out
syntax keyword singConditional if else switch receive
syntax keyword singLabel case ChannelClosed
syntax keyword singRepeat while break continue
syntax keyword singStatement start return delete exchange new NewChannel
syntax keyword singBoolean true false

syntax match singNumber '\<\d\+\>'
syntax match singSend '\.\s*\zsSend\w\+'
syntax match singEdge '[!?]\s*->'
syntax region singComment start='//' end='$' keepend contains=singTodo,@Spell
syntax region singComment start='/\*' end='\*/' contains=singTodo,@Spell
syntax keyword singTodo contained TODO FIXME XXX

highlight default link singStructure Structure
highlight default link singModifier StorageClass
highlight default link singType Type
highlight default link singEnd Type
highlight default link singOwner StorageClass
highlight default link singConditional Conditional
highlight default link singLabel Label
highlight default link singRepeat Repeat
highlight default link singStatement Statement
highlight default link singBoolean Boolean
highlight default link singNumber Number
highlight default link singSend Function
highlight default link singEdge Operator
highlight default link singComment Comment
highlight default link singTodo Todo

let b:current_syntax = 'sing'
let &cpoptions = s:before
unlet s:before
