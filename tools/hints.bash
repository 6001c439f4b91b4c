# What helps where the text of a model is wrong, by what stands at the place and before it: of a
# word or a mark that another language has, what is written here.
#
# tools/explain-fault reads this file. It has set `model` and `place`, has `part`, and calls
# `look_around`, and behind it `explain_syntax`, `explain_unknown` or `explain_type`. These set
# `hint`, and of a syntax `what`.

keywords=' enum abstract class extends var as int bool ref where forall foreach exists sum count '
keywords+='alldifferent pack in maximize minimize true false this and or not '
name='[A-Za-z_][A-Za-z0-9_]*'
units='k K M G T kB KB MB GB TB KiB MiB GiB TiB ms s sec min h cores cpus percent'
declaration='A variable is declared as in `var x as 0..9;`, a fixed one as `var x as 3..3;`.'
one_file='A model is one file, and takes in no other.'
by_constraint='A variable has a shape, and a constraint says what it is:'
no_array='Only objects come in arrays: give a class a number, and declare an array of that.'
collections='array set list vector sequence map optional new reference refs pointer a an one'

# What stands at the place and what before it, a few bytes each; and `lead`, some more of what
# stands before it, without comments and with one blank for many, of which `begun` is the statement
# so far.
look_around() {
    local from=$((place > 400 ? place - 400 : 0)) whole=
    next=$(part "$place" $((place + 40)) | tr '\000\r\n' '\001  ')
    previous=$(part $((place > 40 ? place - 40 : 0)) "$place" | tr '\000\t\r\n' '\001   ')
    touched=${previous: -1}
    previous=${previous%"${previous##*[! ]}"}
    [ "$from" -eq 0 ] || whole='1{$!d};'
    lead=$(part "$from" "$place" | tr '\000' '\001' | sed "$whole s://.*::" | tr -s '\t\r\n ' ' ')
    lead=${lead% }
    begun=${lead##*[;\{\}]}
    begun=${begun# }
    word=
    [[ $next =~ ^$name ]] && word=${BASH_REMATCH[0]}
    before=
    [[ $previous =~ $name$ ]] && before=${BASH_REMATCH[0]}
    return 0
}

# What is written from habit in another language, by where it stands. Each of these functions sets
# the hint and ends with 0 where it knows what was meant, and with 1 where it doesn't.

# Whether a model declares this name: then it is no word of another language.
is_declared() {
    grep -qE "(^|[^A-Za-z0-9_])(class|enum|var)[[:space:]]+$1([^A-Za-z0-9_]|$)" -- "$model"
}

# Units, fractions and other numbers than whole ones in digits.
explain_number() {
    case $touched:$next in
        [0-9]:[A-Za-z_]*)
            [[ $begun =~ (^|[^A-Za-z0-9_])[0-9]+$ && $keywords != *" $word "* ]] || return 1 ;;
        [0-9]:,[0-9][0-9][0-9]*) ;;
        *)
            if [[ $previous =~ (^|[^.])\.$ && $next == .[0-9]* ]] ||
                [[ $begun =~ (^|[^A-Za-z0-9_.])[0-9]+\.$ && $next == [0-9]* ]]; then
                hint="There are no fractions: take a smaller unit."
                return 0
            fi
            [[ $begun =~ (^|[^A-Za-z0-9_])[0-9]+$ ]] || return 1
            [[ " $units " == *" ${word:-?} "* ]] || return 1 ;;
    esac
    hint="A number is digits alone: leave out units and marks, and take one unit throughout."
}

# A name with `-` or `.` in it, where one is declared.
explain_name() {
    [[ $next =~ ^[-.][A-Za-z0-9_.-]* ]] || return 1
    local meant=$before${BASH_REMATCH[0]}
    hint="A name has letters, digits and \`_\` alone: write \`${meant//[-.]/_}\`."
}

# What stands behind `var`.
explain_variable() {
    local declared shape
    case $begun:$next in
        var:[0-9]*..*) hint="$declaration" ;;
        var:[0-9]*) hint="A name begins with a letter or \`_\`: write \`_${next%%[ ;]*}\`." ;;
        var:int\ * | var:bool\ * | var:ref\ *)
            hint="The name stands first, the shape behind \`as\`: \`var x as int;\`." ;;
    esac
    [ -z "$hint" ] || return 0
    if [[ $begun =~ ^var\ $name$ ]]; then
        explain_name && return
        case $next in
            '['*) hint="The length stands behind the class: \`var hosts as Host[2];\`." ;;
            '= '*) hint="$by_constraint \`var n as 0..9; where n = ..;\`." ;;
            ','*) hint="Each variable is declared by itself: \`var x as bool; var y as bool;\`." ;;
            [^$'\001'-$'\177']*) return 1 ;;
            *) hint="$declaration" ;;
        esac
        return 0
    fi
    [[ $begun =~ ^var\ ($name)\ as(\ (.*))?$ ]] || return 1
    declared=${BASH_REMATCH[1]}
    shape=${BASH_REMATCH[3]}
    case $shape:$next in
        :sum\ * | :count\ *) hint="$by_constraint \`var n as 0..9; where n = $word ..;\`." ;;
        int:[0-9-]*) hint="A range stands alone: \`0..9\`." ;;
        *[0-9]:step\ * | *[0-9]:by\ *)
            hint="A range has no steps: take a smaller one, and \`2 * x\` in its place." ;;
        :\[* | :\(* | :\{*)
            hint="A range is \`0..9\`, without brackets; values with names are an enumeration." ;;
        :..*) hint="Both ends of a range stand there: \`0..9\`." ;;
        :[\;,=\<\>]*) hint="A shape is missing, such as \`0..9\`, \`bool\` or \`ref Host\`." ;;
        :\&* | :\**) hint="A reference is written \`ref Host\`." ;;
        ref:\;*) hint="Behind \`ref\` stands a class: \`ref Host\`." ;;
        ref:ref\ *) hint="One \`ref\` is enough." ;;
        *'['*']':'['*) hint="An array has one length: put the inner one into a class." ;;
        *'['*[0-9]:[^]]*) hint="The length of an array is a number in the text." ;;
        *'..':.*) hint="A range has two dots: \`0..9\`." ;;
        *'..':[[\;\)A-Za-z_]* | *'..-':* | *[A-Za-z]*:..*)
            hint="Both ends of a range are numbers in the text." ;;
        *:default\ * | *:init\ * | *:=[^\>]* | *::=* | *:\<[^-]* | *:\>* | *:!=*)
            hint="A variable gets no value where it is declared: say it by a range, \`4..4\`, or by"
            hint="$hint \`where $declared = ..;\`." ;;
        *:\?*) hint="A reference always names an object: declare one that stands for none." ;;
        *:,*) hint="Each variable is declared by itself: \`var x as bool; var y as bool;\`." ;;
        *)
            if [[ $shape =~ ^$name\ ?\( ]]; then
                hint="Attributes are fixed by constraints: \`where $declared.cpu = 4;\`."
            elif [[ $shape =~ ^-?\ ?[0-9]+$ && $next =~ ^(-|:|\;|to\ ) ]]; then
                hint="A range is written \`0..9\`, one value \`3..3\`."
            elif [[ $shape =~ ^(ref\ )?$name(\ ?\[[0-9]+\])?$ && $next =~ ^(\{|\(|with\ ) ]]; then
                hint="Attributes are fixed by constraints: \`where $declared.cpu = 4;\`."
                [[ $shape != *']' ]] ||
                    hint="${hint%%: *}: \`where forall h in $declared { h.cpu = 4; };\`."
            elif [[ " $collections " == *" $shape "* && -n $word ]]; then
                hint="An array is \`Host[2]\`, a reference \`ref Host\`, a set \`ref Host[2]\`."
            elif [[ $shape =~ ^-?[0-9]+\ ?\.\.\ ?-?[0-9]+$ && $next == '['* ]]; then
                hint=$no_array
            else
                return 1
            fi ;;
    esac
}

# What stands behind `class` and `enum`.
explain_class() {
    if [[ $begun == abstract ]]; then
        hint="\`abstract\` stands before \`class\` alone."
    elif [[ $begun =~ ^(abstract\ )?class\ $name(\ extends\ $name)?$ ]]; then
        explain_name && return
        case $next in
            ','*) hint="A class extends one other at most." ;;
            [^$'\001'-$'\177']*) return 1 ;;
            *) hint="A class is \`class Host { .. }\`, or \`class Big extends Host { .. }\`." ;;
        esac
    elif [[ $begun =~ ^enum\ $name$ ]]; then
        explain_name && return
        [[ $next != [^$'\001'-$'\177']* ]] || return 1
        hint="The values stand in braces: \`enum Size { Small, Large }\`."
    elif [[ $lead =~ (^|[;\}\ ])enum\ $name\ ?\{[^\{\}]*$ ]]; then
        case $next in
            \;* | [A-Za-z0-9_]* | =*)
                hint="Between the values stands a \`,\`, and nothing else: \`{ Small, Large }\`." ;;
            [-.]*) explain_name ;;
            *) return 1 ;;
        esac
    else
        return 1
    fi
}

# What stands where a declaration or a constraint has to begin.
explain_start() {
    case $begun:$next in
        minimize:[:{]* | maximize:[:{]*)
            hint="Behind \`$begun\` stands a number: \`$begun x + 2 * y;\`."
            return ;;
        import:* | include:*) hint="$one_file"; return ;;
    esac
    if [[ $begun =~ ^$name$ && $keywords != *" $begun "* && $next == :* ]]; then
        hint="$declaration"
        return
    fi
    [ -z "$begun" ] || return 1
    case $next in
        \;*)
            [[ $previous == *\; || -z $previous ]] || return 1
            hint="One \`;\` is enough; and a comment begins with \`//\`."
            return ;;
        --* | '<!'*) hint="A comment begins with \`//\`."; return ;;
    esac
    if [[ $next =~ ^$name(\.$name)*(\ ?(=|!=|\<|\>)|\ as\ |\ in\ ) ]] ||
        { [ -n "$word" ] && is_declared "$word"; }; then
        explain_begun_word
        return
    fi
    case $word in
        '') return 1 ;;
        const | constant | let | define | def | param | parameter | val | set | static | final)
            hint="Write \`var\`; a constant is a variable of one value, \`var k as 3..3;\`." ;;
        minimise | minimum | min) hint="Write \`minimize\`." ;;
        maximise | maximum | max) hint="Write \`maximize\`." ;;
        solve | objective) hint="An objective is \`minimize x;\` or \`maximize x;\`." ;;
        constraint | constraints | assert | assume | require | requires | ensure | ensures | \
            invariant | rule | subject)
            hint="A constraint begins with \`where\`: \`where x < 3;\`." ;;
        soft | prefer | weak) explain_preference ;;
        for | each | every | all | forall | foreach)
            hint="Write \`where forall v in Vm { v.on; };\`." ;;
        exists | any | some) hint="Write \`where exists v in Vm { v.on; };\`." ;;
        count | sum | alldifferent | pack | not)
            hint="A constraint begins with \`where\`: \`where $word ..;\`." ;;
        if) hint="There is no \`if\`: write \`where a -> b;\`, and \`not a -> c\` else." ;;
        int | bool) hint="$declaration" ;;
        type) hint="No range has a name; things of a kind are a \`class Host { .. }\`." ;;
        struct | record | object | interface | entity)
            hint="Things of a kind are a \`class Host { .. }\`." ;;
        import | include | module | package) hint="$one_file" ;;
        output | print | show) hint="The whole answer is printed: write nothing for that." ;;
        public | private | protected | mut | new)
            hint="Write no \`$word\`: there are no such marks." ;;
        *) explain_begun_word ;;
    esac
}

# A word that no declaration begins with, by what stands behind it.
explain_begun_word() {
    [[ $keywords != *" $word "* || $word == this ]] || return 1
    explain_capitals "$word" && return
    if [[ $next =~ ^($name(\.$name)*)(\ ?(=|!=|\<|\>)|\ in\ ) ]]; then
        hint="A constraint begins with \`where\`: \`where ${BASH_REMATCH[1]} ..;\`."
    elif [[ $next =~ ^$name\ as\  ]]; then
        hint="A variable begins with \`var\`: \`var $word as ..;\`."
    elif [[ $next =~ ^$name\ ?:\ ?[A-Za-z0-9] || $next =~ ^$name\ $name\ ?(\;|=|\[) ]]; then
        hint="$declaration"
    else
        return 1
    fi
}

# A keyword in capitals, in a word at the place or before it.
explain_capitals() {
    local small=${1,,}
    [[ -n $1 && $1 != "$small" && $keywords == *" $small "* ]] && ! is_declared "$1" || return 1
    hint="Keywords are written in small letters: \`$small\`."
}

explain_preference() {
    hint="What needn't hold is an objective: \`maximize count v in Vm { v.on };\`."
}

# A quantifier in another form.
explain_quantifier() {
    local which='(forall|foreach|exists|sum|count|alldifferent|pack)'
    local any='(forall|foreach|for|each|every|all|exists|any|some|sum|count|alldifferent|pack)'
    local of='\ in\ [A-Za-z_][A-Za-z0-9_.]*' next_word=
    [[ -z $word || $keywords == *" $word "* ]] || next_word=$word
    if [[ $begun =~ (^|[^A-Za-z0-9_])$which$ ]]; then
        case $next in
            \(* | \{*) explain_form "${BASH_REMATCH[2]}" ;;
            *) return 1 ;;
        esac
    elif [[ $begun =~ (^|[^A-Za-z0-9_])$which\ $name$ ]]; then
        case $next in
            ,* | in\ *) return 1 ;;
            *) explain_form "${BASH_REMATCH[2]}" ;;
        esac
    elif [[ $begun =~ (^|[^A-Za-z0-9_])$which\ $name$of$ ]]; then
        [[ $next == [:\|=\<\>\(\;]* || -n $next_word ]] && explain_form "${BASH_REMATCH[2]}"
    elif [[ $next == :* && $begun =~ (^|[^A-Za-z0-9_])$any(\ |\ ?\(\ ?)$name$of$ ]]; then
        explain_form "${BASH_REMATCH[2]}"
    elif [[ $next == \;* && $begun =~ (^|[^A-Za-z0-9_])$which\ $name$of\ where\  ]]; then
        explain_form "${BASH_REMATCH[2]}"
    elif [[ $next == [0-9\{\[\(-]* && $begun =~ (^|[^A-Za-z0-9_])$which\ $name\ in$ ]]; then
        hint="A quantifier goes over the objects of a class, of an array or of a set."
    elif [[ $next == \{* && $begun =~ ^where\ $name$of$ ]]; then
        explain_form forall
    else
        return 1
    fi
}

# The form of a quantifier.
explain_form() {
    case $1 in
        forall | foreach | exists) hint="Write \`$1 v in Vm { v.on; }\`." ;;
        for | each | every | all) hint="Write \`forall v in Vm { v.on; }\`." ;;
        any | some) hint="Write \`exists v in Vm { v.on; }\`." ;;
        sum) hint="Write \`sum v in Vm { v.size }\`." ;;
        count) hint="Write \`count v in Vm { v.on }\`." ;;
        alldifferent) hint="Write \`alldifferent v in Vm { v.host }\`." ;;
        pack) hint="Write \`pack v in Vm { v.host; v.size; v.host.room; }\`." ;;
    esac
    hint="${hint%.}, in this order and with braces."
}

# A function, or a quantifier that isn't there: the word before the place, where a word, a
# parenthesis or a brace stands.
explain_function() {
    [[ $next == [\(\{]* || -n $word && $keywords != *" $word "* ]] || return 1
    [[ -n $before && $previous != *".$before" ]] && ! is_declared "$before" || return 1
    case ${before,,} in
        max | maximum)
            hint="There is no \`$before\`: take a variable \`m\`, as in"
            hint="$hint \`forall v in Vm { v.size <= m; }\`." ;;
        min | minimum)
            hint="There is no \`$before\`: take a variable \`m\`, as in"
            hint="$hint \`forall v in Vm { m <= v.size; }\`." ;;
        abs)
            hint="There is no \`abs\`: write \`x - y <= 2 and y - x <= 2\`." ;;
        len | length | size | card | number)
            [[ $next == \(* ]] || return 1
            hint="There is no \`$before\`: count the members, \`count v in Vm { true }\`." ;;
        avg | average | mean)
            hint="There is no \`$before\`: bound the \`sum\`, and multiply the other side." ;;
        for | each | every | all) hint="Write \`forall v in Vm { v.on; }\`." ;;
        any | some) hint="Write \`exists v in Vm { v.on; }\`." ;;
        all_different | alldifferent | alldiff | distinct | unique)
            hint="Write \`alldifferent v in Vm { v.host }\`." ;;
        no | none) hint="Write \`not exists v in Vm { v.on; }\`." ;;
        at) hint="Write \`count v in Vm { v.on } <= 3\`, and of 'at least' \`>= 3\`." ;;
        if) hint="There is no \`if\`: write \`a -> b\`, and \`not a -> c\` else." ;;
        soft | prefer | weak) explain_preference ;;
        *) explain_capitals "$before" ;;
    esac
}

# A word or a mark that is no operator here.
explain_operator() {
    [ -z "$word" ] || ! is_declared "$word" || return 1
    explain_capitals "$word" && return
    case $previous:$next in
        *[!\<\>=!]'<':'->'* | *'<=':'>'*) hint="For 'if and only if' write \`a = b\`." ;;
        *:'<=>'*) hint="For 'if and only if' write \`a = b\`." ;;
        *:'=>'* | *[!\<\>=!]=:'>'* | *==:'>'* | *-:'->'*)
            hint="'If .. then' is written \`a -> b\`, and 'at least' \`>=\`." ;;
        *:not=* | *:not\ =*) hint="Other than is written \`!=\`." ;;
        *[0-9A-Za-z_\)\}]:at\ most\ * | *[0-9A-Za-z_\)\}]:at\ least\ *)
            hint="'At most' is written \`<=\`, 'at least' \`>=\`." ;;
        *[0-9A-Za-z_\)\}]:forall\ * | *[0-9A-Za-z_\)\}]:foreach\ *)
            [[ $keywords != *" ${before:-?} "* ]] || return 1
            hint="A quantifier comes first: \`forall v in Vm { v.size <= 4; }\`." ;;
        *:not\ in\ * | *:'!in '* | *:'! in '*) hint="Write \`not r in hosts\`." ;;
        *\ in:[0-9-]*)
            hint="Behind \`in\` stands no range: write \`1 <= x and x <= 3\`." ;;
        *\ in:[\{\[\(]*)
            hint="Behind \`in\` stands the name of an array, of a set or of a class; of single"
            hint="$hint values write \`x = 1 or x = 3\`." ;;
        *[[:alnum:]_\ ]=:[~!]* | *:[~]=*) hint="Other than is written \`!=\`." ;;
        *:'~'*) hint="Write \`not\` or \`!\`." ;;
        *[A-Za-z_].:[0-9]*)
            hint="Elements of arrays have no name in expressions: quantify over the array." ;;
        *:'::'*) hint="A value is written \`Size.Small\`, an attribute \`vm.size\`." ;;
        *:':='*) hint="Nothing is assigned: a constraint says what holds, \`where x = 3;\`." ;;
        *+:[+=]* | *-:=*)
            hint="Nothing is assigned or counted up: a constraint says what holds." ;;
        *:'?'* | *:then\ * | *:else\ * | *:elif\ * | *:elseif\ * | *:unless\ * | \
            *:if\ *)
            hint="Cases are written \`(a -> b) and (not a -> c)\`." ;;
        *'*':'*'*) hint="There are no powers." ;;
        *:'^'*)
            hint="There are no powers, and \`a != b\` says 'either, and not both'." ;;
        *:between\ *) hint="Write \`1 <= x and x <= 3\`." ;;
        *:is\ * | *:isa\ * | *:instanceof\ *)
            hint="Write \`x = 3\`, and of a class \`r in Big\`." ;;
        *:implies\ *) hint="Write \`a -> b\`." ;;
        *:iff\ *) hint="Write \`a = b\`." ;;
        *:xor\ *) hint="Write \`a != b\`." ;;
        *:div\ * | *:mod\ * | *:'%'*)
            [[ -n $begun ]] || return 1
            hint="There is no division: take a variable \`y\`, \`3 * y <= x and x < 3 * y + 3\`;"
            hint="$hint \`x - 3 * y\` is the remainder." ;;
        *:')'*) hint="Here stands a \`)\` without a \`(\`, or something is missing before it." ;;
        *[0-9A-Za-z_\)]:\;*)
            [[ ${begun//[!\(]/} != "${begun//[!\)]/}" ]] || return 1
            local opened=${begun//[!\(]/} closed=${begun//[!\)]/}
            [ "${#opened}" -gt "${#closed}" ] || return 1
            hint="A \`)\` is missing before this \`;\`." ;;
        *:$'\342\211\244'* | *:$'\342\211\245'* | *:$'\342\211\240'*)
            hint="Comparisons are written \`<=\`, \`>=\`, \`!=\`, in ASCII." ;;
        *:$'\342\200\223'* | *:$'\342\200\224'* | *:$'\342\210\222'*)
            hint="Minus is written \`-\`, in ASCII." ;;
        *:$'\342\200\234'* | *:$'\342\200\235'* | *:$'\342\200\230'*)
            hint="There are no strings: use an enumeration, and \`Name.Value\`." ;;
        *) return 1 ;;
    esac
}

# What was written from habit, if one of these knows it.
explain_habit() {
    explain_number || explain_variable || explain_class || explain_start || explain_quantifier ||
        explain_function || explain_operator
}

# What helps where the text is no model, by what stands at the place and before it.
explain_syntax() {
    what="no model goes on with this"
    case $next in
        '')
            what="the text ends before the model does"
            hint="A \`;\`, a \`}\` or more is missing at the end." ;;
        $'\357\273\277'*)
            what="the file begins with a byte order mark"
            hint="Save the file as UTF-8 without a byte order mark." ;;
        *)
            if explain_habit; then
                [[ $next != [^$'\001'-$'\177']* ]] || what="nothing begins with this byte"
            else
                explain_mark || explain_keyword || explain_here
            fi ;;
    esac
}

# A mark or a byte that means nothing here, or not what it means elsewhere.
explain_mark() {
    case $next in
        '/*'*) hint="A comment begins with \`//\`, and ends with its line." ;;
        '/'*)
            hint="There is no division: multiply the other side; and comments begin with \`//\`." ;;
        '&'* | '|'*) hint="Write \`and\` or \`&&\`, \`or\` or \`||\`." ;;
        '#'* | '%'*) hint="A comment begins with \`//\`, and there is no remainder." ;;
        '"'* | "'"*) hint="There are no strings: use an enumeration, and \`Name.Value\`." ;;
        ','*)
            hint="Bodies and declarations end with a \`;\`; a quantifier has one variable,"
            hint="$hint so put one within the other."
            [[ ! $begun =~ ^(minimize|maximize)\  ]] ||
                hint="Each objective stands by itself: \`${BASH_REMATCH[1]} x; minimize y;\`." ;;
        [A-Za-z0-9_{}\[\]\(\)\;.=\<\>+*!-]*) return 1 ;;
        [$'\001'-$'\177']*)
            what="nothing begins with this byte"
            hint="No word and no mark of the language has this character." ;;
        *)
            what="nothing begins with this byte"
            hint="Outside of comments a model has letters, digits and marks of ASCII alone." ;;
    esac
}

# A keyword where a name has to stand, or a word that looks like one.
explain_keyword() {
    case $before:$next in
        var:* | class:* | enum:* | as:* | ref:* | extends:*)
            [[ -n $word && $keywords == *" $word "* ]] || return 1
            hint="\`$word\` is a keyword and no name; choose another one." ;;
        if:*) hint="There is no \`if\`: write \`a -> b\`, and \`not a -> c\` else." ;;
        *) return 1 ;;
    esac
}

# Anything else.
explain_here() {
    case $next in
        '}'*) explain_brace ;;
        ';'*) explain_semicolon ;;
        '['*)
            hint="Elements of arrays have no name in expressions: quantify over the array."
            [[ $before != int && $before != bool ]] || hint=$no_array ;;
        .*)
            hint="Before a \`.\` stands a name, as in \`vm.size\`."
            [[ $previous != *[0-9] ]] || hint="There are no fractions: take a smaller unit." ;;
        '('*) hint="There are no functions; before a \`(\` an operator or a \`;\` is missing." ;;
        '='* | '<'* | '>'* | '!='*)
            if [[ ! $previous =~ [=\<\>[:alnum:]_\)\}]$ || $keywords == *" ${before:-?} "* ]]; then
                hint="Something is missing before this comparison."
            elif [[ $previous =~ [=\<\>]$ ]]; then
                hint="Comparisons are written \`=\`, \`!=\`, \`<\`, \`<=\`, \`>\`, \`>=\`."
            else
                hint="Comparisons don't chain: write \`a < b and b < c\`, or \`a = (b < c)\`."
            fi ;;
        *) explain_word ;;
    esac
}

# A brace that closes nothing, or too early.
explain_brace() {
    case $previous in
        *';')
            hint="This \`}\` is one too many."
            [[ ! $lead =~ pack\ [^{]*\{[^{}]*$ ]] ||
                hint="\`pack\` takes three expressions: \`{ place; size; room; }\`." ;;
        *'}') hint="A \`;\` is missing before this \`}\`, or it is one too many." ;;
        '') hint="This \`}\` is one too many." ;;
        *'{') hint="At least one expression or name has to stand between these braces." ;;
        *',') hint="No \`,\` stands behind the last value of an enumeration." ;;
        *[[:alnum:]_\)\]]) hint="A \`;\` is missing before this \`}\`." ;;
        *) hint="Something is missing before this \`}\`." ;;
    esac
}

# A semicolon that ends nothing, or too early.
explain_semicolon() {
    if [[ $previous == *'}' ]]; then
        hint="No \`;\` stands behind the \`}\` of class, enum or \`where { }\`."
    elif [[ $lead =~ (count|sum|alldifferent)\ [^{}]*\{[^{}\;]*$ ]]; then
        hint="\`count\`, \`sum\`, \`alldifferent\` take one expression without a \`;\`."
    else
        hint="Something is missing before this \`;\`, or it is one too many."
    fi
}

# A word, a number or an operator that has no place here.
explain_word() {
    case $previous:$word in
        *'[':*) hint="The length of an array is a number in the text." ;;
        *:where)
            hint="Only \`forall\`, \`exists\` and \`sum\` have a filter;"
            hint="$hint before a constraint a \`;\` or \`}\` may be missing." ;;
        *:minimize | *:maximize | *:class | *:enum | *:abstract)
            hint="This stands at the top level alone; a \`;\` or \`}\` may be missing." ;;
        *:var) hint="A \`;\` is missing before this, at the end of what stands there." ;;
        *:div | *:mod | *:xor | *:implies | *:iff)
            hint="There is no \`$word\`; the operators are \`+ - *\`, comparisons,"
            hint="$hint \`in\`, \`not and or ->\`." ;;
        *) hint="A \`;\` or an operator is missing before this, or it has no place here." ;;
    esac
}

# Sets the hint where the name is a value of an enumeration, or a class with an attribute behind it.
explain_known_word() {
    local owner class="(^|[^A-Za-z0-9_])class[[:space:]]+$word[^A-Za-z0-9_]"
    owner=$(sed 's://.*::' <"$model" | tr '\000\t\r\n' '?   ' |
        sed -nE "s/.*(^|[ ;}])enum +($name) *\{([^}]*[ ,{])?$word[ ,}].*/\2/p")
    if [ -n "$owner" ]; then
        hint="A value stands behind its enumeration: \`$owner.$word\`."
    elif [[ $next == "$word".* ]] && grep -qE "$class" -- "$model"; then
        hint="\`$word\` is a class: quantify over its objects, as by \`forall v in $word { .. }\`."
    else
        return 1
    fi
}

# What helps where a name means nothing.
explain_unknown() {
    [ -z "$word" ] || ! explain_known_word || return 0
    case $begun:${word,,} in
        *\ as:string | *\ as:str | *\ as:text | *\ as:char)
            hint="There are no strings: use an enumeration, and \`Name.Value\`; a variable's own"
            hint="$hint name is what answers say." ;;
        *\ as:float | *\ as:double | *\ as:real | *\ as:decimal)
            hint="There are no fractions: take a smaller unit, and a range such as \`0..9\`." ;;
        *\ as:integer | *\ as:int | *\ as:number | *\ as:nat | *\ as:natural | *\ as:long | \
            *\ as:unsigned)
            hint="A number is a range such as \`0..9\`, or \`int\`." ;;
        *\ as:boolean | *\ as:bool | *\ as:bit) hint="Write \`bool\`." ;;
        *\ as:*)
            hint="Look at its spelling, or declare the class or enumeration; else a range is"
            hint="$hint \`0..9\`." ;;
        *:null | *:nil | *:none | *:nothing)
            hint="A reference always names an object: declare one that stands for none, or look at"
            hint="$hint the spelling." ;;
        *:true | *:yes) hint="Write \`true\`, in small letters." ;;
        *:false | *:no) hint="Write \`false\`, in small letters." ;;
        *:self | *:this | *:me)
            hint="In a constraint of a class its object is \`this\`, and there alone." ;;
        *)
            hint="Look at its spelling, declare it, or say whose it is, as in \`vm.size\`,"
            hint="$hint \`Size.Small\`."
            [[ ! $next =~ ^$name-[A-Za-z0-9] ]] ||
                hint="$hint No name has a \`-\`: it subtracts." ;;
    esac
}

# What helps where a type is wrong, if it can be told.
explain_type() {
    case $begun:$next in
        minimize:* | maximize:*)
            hint="An objective is a number: count truths, as by"
            hint="$hint \`$begun count v in Vm { v.on };\`." ;;
        *\ or:[0-9]* | *\ and:[0-9]*)
            hint="Write the whole comparison again: \`x = 1 or x = 3\`." ;;
        *:this-\>*) hint="An attribute is written \`this.size\`." ;;
        *) return 1 ;;
    esac
}
