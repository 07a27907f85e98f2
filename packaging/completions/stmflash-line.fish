# Completion of stmflash-line for fish.

function __stmflash_line_has_command --description 'Whether -- was given'
    contains -- -- (commandline -opc)
end

function __stmflash_line_command --description 'What the command behind -- would be completed by'
    set -l words (commandline -opc)
    set -l begin (math (contains -i -- -- $words) + 1)
    set -l before
    if test $begin -le (count $words)
        set before (string escape -- $words[$begin..-1])
    end
    complete -C (string join -- ' ' $before (commandline -ct))
end

complete -c stmflash-line -f
complete -c stmflash-line -n "not __stmflash_line_has_command" -a '(path filter /dev/ttyUSB* /dev/ttyACM* /dev/ttyAMA* /dev/ttyS* /dev/serial/by-id/*)'
complete -c stmflash-line -n "not __stmflash_line_has_command" -s h -l help -d 'Print help'
complete -c stmflash-line -n "not __stmflash_line_has_command" -l baud -x -a '9600 19200 38400 57600 115200' -d 'Its speed'
complete -c stmflash-line -n "not __stmflash_line_has_command" -l wiring -x -a 'dtr-reset,rts-boot0 rts-reset,dtr-boot0 dtr-reset rts-reset' -d 'What reset and BOOT0 hang on'
complete -c stmflash-line -n "not __stmflash_line_has_command" -l boot -x -d 'How RTS, DTR and break are moved'
complete -c stmflash-line -n "not __stmflash_line_has_command" -l resets -d 'The sequence of --boot is a reset'
complete -c stmflash-line -n "not __stmflash_line_has_command" -l after -x -d 'The same for the end'
complete -c stmflash-line -n "not __stmflash_line_has_command" -l gpio-chip -x -a '(path basename /dev/gpiochip*)' -d 'The chip of the GPIO lines in a sequence'
complete -c stmflash-line -n "not __stmflash_line_has_command" -l idle -x -d 'Seconds until a client that says nothing is let go of'
complete -c stmflash-line -n "not __stmflash_line_has_command" -l watch -d 'Ends the line at a reply that no device of the model gives'
complete -c stmflash-line -n "not __stmflash_line_has_command" -l socket -r -F -d 'Serves this socket'
complete -c stmflash-line -n __stmflash_line_has_command -a '(__stmflash_line_command)'
