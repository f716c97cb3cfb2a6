# The words of smd and its like, for fish. It lies under the name of each program, and the first to be read is enough for all.

if not set -q __smd_completions
    set -g __smd_completions read

    # Whether nothing but options stands behind the program's name, so that its word comes next.
    function __smd_first
        test (count (commandline -opc)) -eq 1
    end

    # Whether one of these words stands behind the program's name.
    function __smd_at
        set -l words (commandline -opc)
        test (count $words) -ge 2; and contains -- $words[2] $argv
    end

    # The IDs that the user's store has and that no client has now.
    function __smd_gone
        set -l state $HOME/.local/state
        set -q XDG_STATE_HOME; and set state $XDG_STATE_HOME
        set -l there (smctl clients --plain 2>/dev/null | string replace -rf '.* id=([^ ]*).*' '$1')
        for id in (smd store-check --store $state/smd/store 2>/dev/null | string replace -rf '^ *entry ' '')
            contains -- $id $there; or echo $id
        end
    end

    # __smd_option KIND PROGRAM WORDS OPTION TEXT: an option behind one of these words, or anywhere where there is none; its value
    # is a file, a folder or another value, or it has none.
    function __smd_option
        set -l how
        switch $argv[1]
            case file folder
                set how -r -F
            case value
                set how -x
        end
        test -n "$argv[3]"; and set -a how -n "__smd_at $argv[3]"
        complete -c $argv[2] -l $argv[4] -d $argv[5] $how
    end

    for program in smd smctl smtrace smclient smrelay smwrap smnest smd-session smd-logout smd-ask smd-autostart
        complete -c $program -f
    end
    for program in smd smctl smtrace smclient smrelay smwrap smnest
        complete -c $program -n __smd_first -l help -d 'tell the words'
        complete -c $program -n __smd_first -l version -d 'tell the version'
    end

    complete -c smd -n __smd_first -a serve -d 'run the session of a desktop'
    complete -c smd -n __smd_first -a rehearse -d 'show what is answered to a script'
    complete -c smd -n __smd_first -a exercise -d 'save so many times in memory'
    complete -c smd -n __smd_first -a store-check -d 'show what stands in a store'
    complete -c smd -n __smd_first -a sessions -d 'list the sessions of a store'
    complete -c smd -n __smd_first -a restore -d 'put a kept session back'
    complete -c smd -n __smd_first -a login -d 'keep a session, or put one back, before it begins'
    complete -c smd -n __smd_first -a kept -d 'list what is kept of a session'
    for program in smd smnest
        __smd_option file $program serve socket 'where clients come'
        __smd_option file $program serve control 'where the operator comes'
        __smd_option file $program serve authority 'the file from which clients have the cookie'
        __smd_option value $program serve patience 'how long a silent client is waited for'
    end
    __smd_option file smnest serve store 'the file of the checkpoints'
    __smd_option value smnest serve session 'the name of the session in its store'
    __smd_option file smd 'serve store-check sessions restore login kept' store 'the file of the checkpoints'
    __smd_option value smd 'serve store-check restore login kept' session 'the name of the session in its store'
    __smd_option none smd serve private 'nobody can connect by the abstract socket'
    __smd_option value smd serve last-wait 'how long a client is left that was told to die'
    __smd_option none smd serve quirks 'take programs on Xt, Qt and twm for what they mean'
    __smd_option file smd serve record 'the file that takes the record of the session'
    __smd_option none smd store-check json 'as JSON'
    __smd_option file smd restore from 'the kept store or book'
    __smd_option none smd restore all 'all sessions'
    __smd_option file smd restore beside 'where the present book goes first'
    __smd_option none smd restore look 'only tell what would come back'
    __smd_option folder smd 'login kept' kept 'the folder of what is kept'
    complete -c smd -n '__smd_at login' -l choice -x -a 'stay anew nobody' -d 'what was chosen'

    __smd_option file smctl '' control 'the socket of the operator'
    for order in checkpoint:'save all programs' shutdown:'log out' cancel:'call the logout off' status:'how things stand' \
            clients:'who is there, and who is waited for' drop:'go on without a client' forget:'forget an ID'
        set -l parts (string split -m 1 : $order)
        complete -c smctl -n 'not __fish_seen_subcommand_from checkpoint shutdown cancel status clients drop forget' -a $parts[1] -d $parts[2]
    end
    complete -c smctl -n '__fish_seen_subcommand_from shutdown' -l wait -d 'stay until the session has ended'
    complete -c smctl -n '__fish_seen_subcommand_from clients' -l plain -d 'fields for scripts'
    complete -c smctl -n '__fish_seen_subcommand_from drop' -a "(smctl clients --plain 2>/dev/null | string replace -rf '^conn=([0-9]*) .*' '\$1')"
    complete -c smctl -n '__fish_seen_subcommand_from forget' -a '(__smd_gone)'

    complete -c smtrace -n __smd_first -a show -d 'message by message'
    complete -c smtrace -n __smd_first -a read -d 'told for people'
    complete -c smtrace -n __smd_first -a draw -d 'as a picture'
    complete -c smtrace -n __smd_first -a replay -d 'against the session machine'
    __smd_option file smtrace read follow 'tell a record while it is written'

    for program in smclient smwrap
        __smd_option file $program '' socket 'where the manager listens'
        __smd_option file $program '' authority 'the file that has the cookie'
        __smd_option value $program '' id 'the ID of an earlier session'
    end
    __smd_option value smclient '' program 'its name'
    __smd_option value smclient '' saves 'how many'
    __smd_option none smclient '' interact 'ask for a dialog'
    __smd_option none smclient '' phase-two 'save when all others have'
    __smd_option file smwrap '' state 'the file of the state'
    __smd_option value smwrap '' from 'the number of the last copy'
    complete -c smwrap -n 'contains -- -- (commandline -opc)' -a '(__fish_complete_subcommand)'

    complete -c smrelay -n __smd_first -a serve -d 'stand before a manager'
    complete -c smrelay -n __smd_first -a rehearse -d 'show what is passed on'
    complete -c smrelay -n '__smd_at rehearse' -a 'lsb msb'
    __smd_option file smrelay serve socket 'where clients come'
    __smd_option file smrelay serve to 'where the manager listens'
    complete -c smrelay -n '__smd_at serve' -l order -x -a 'lsb msb' -d 'the order of bytes'
    __smd_option none smrelay serve private 'nobody can connect by the abstract socket'

    complete -c smnest -n __smd_first -a serve -d 'run a session inside another'
    complete -c smnest -n __smd_first -a rehearse -d 'show what is answered to a script'
    __smd_option file smnest serve outer 'the socket of the outer manager'
    __smd_option file smnest serve outer-authority 'the file that has its cookie'
    __smd_option value smnest 'serve rehearse' outer-id 'the ID of an earlier session'

    complete -c smd-session -l list -d 'the sessions that are kept'
    complete -c smd-session -l restore -x -d 'bring one back'
    complete -c smd-session -l anew -d 'begin as at the first login'
    complete -c smd-logout -l now -d 'log out without a question'
    complete -c smd-logout -l save -d 'save all programs'
    complete -c smd-ask -l seconds -x -d 'how long it waits'
    complete -c smd-ask -l buttons -d 'a button for each answer'
    complete -c smd-ask -l tell -x -d 'tell and ask nothing'
    complete -c smd-autostart -l list -d 'print the commands'
    complete -c smd-autostart -l session -r -F -d 'the store and the session of what is there'
end
