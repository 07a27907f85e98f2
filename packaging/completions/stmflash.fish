# Completion of stmflash for fish.

set -l all info read crc write verify erase undo go protect log keep sim help
set -l device info read crc write verify erase undo go protect

function __stmflash_in --description 'Whether one of these subcommands was given'
    __fish_seen_subcommand_from $argv
end

complete -c stmflash -f
complete -c stmflash -s h -l help -d 'Print help'
complete -c stmflash -n "not __stmflash_in $all" -s V -l version -d 'Print version'
complete -c stmflash -n "not __stmflash_in $all" -a info -d 'Tells what the device is'
complete -c stmflash -n "not __stmflash_in $all" -a read -d 'Reads the flash into a file'
complete -c stmflash -n "not __stmflash_in $all" -a crc -d 'Tells the CRC of the flash'
complete -c stmflash -n "not __stmflash_in $all" -a write -d 'Writes an image'
complete -c stmflash -n "not __stmflash_in $all" -a verify -d 'Compares the flash with an image'
complete -c stmflash -n "not __stmflash_in $all" -a erase -d 'Erases pages'
complete -c stmflash -n "not __stmflash_in $all" -a undo -d 'Undoes the newest writes and erases'
complete -c stmflash -n "not __stmflash_in $all" -a go -d 'Runs what stands at an address'
complete -c stmflash -n "not __stmflash_in $all" -a protect -d 'Changes a protection'
complete -c stmflash -n "not __stmflash_in $all" -a log -d 'Tells what a journal holds'
complete -c stmflash -n "not __stmflash_in $all" -a keep -d 'Keeps what was written, and gives the way back up'
complete -c stmflash -n "not __stmflash_in $all" -a sim -d 'Serves a simulated device'
complete -c stmflash -n "not __stmflash_in $all" -a help -d 'Print help'
complete -c stmflash -n "__stmflash_in help" -a "$all"

complete -c stmflash -n "__stmflash_in $device sim" -l table -r -F -d 'The chip table'
complete -c stmflash -n "__stmflash_in $device" -l device -r -F -a 'sim:' -d 'sim:ID:FILE, or the path of a Unix socket'
complete -c stmflash -n "__stmflash_in $device log keep" -l journal -r -F -d 'The journal of what was done'
complete -c stmflash -n "__stmflash_in $device" -l journals -x -a '(__fish_complete_directories)' -d 'A folder in which each board has its journal'
complete -c stmflash -n "__stmflash_in $device keep sim" -l no-lock -d 'Goes on where there are no locks'
complete -c stmflash -n "__stmflash_in $device keep" -l trust-journal -d 'Uses files of others too'
complete -c stmflash -n "__stmflash_in $device" -l wait -x -d 'Milliseconds that a reply may take'
complete -c stmflash -n "__stmflash_in $device" -l baud -x -a '9600 19200 38400 57600 115200' -d 'Bits a second that the line has'
complete -c stmflash -n "__stmflash_in $device" -l stop -x -d 'Stops a simulator after so many steps'
complete -c stmflash -n "__stmflash_in $device" -l give-up -x -d 'Seconds of silence until the line has failed'
complete -c stmflash -n "__stmflash_in $device" -l progress -d 'A line for each page, also where it is no terminal'
complete -c stmflash -n "__stmflash_in $device" -l quiet -d 'No progress'
complete -c stmflash -n "__stmflash_in $device" -l watch -d 'Ends at the first reply that the model does not have'
complete -c stmflash -n "__stmflash_in $device log keep" -l json -d 'Tells what came of it as a line of JSON'
complete -c stmflash -n "__stmflash_in $device" -l board -x -d 'The unique id that is wanted, or its last digits'
complete -c stmflash -n "__stmflash_in $device" -l no-board -d 'Does not ask which board it is'
complete -c stmflash -n "__stmflash_in log" -l check -d 'Reads all of it, and tells the CRC of each kept page'
complete -c stmflash -n "__stmflash_in info" -l raw -d 'What a device of any chip tells'
complete -c stmflash -n "__stmflash_in read crc write verify" -s S -x -d 'address[:length]'
complete -c stmflash -n "__stmflash_in write verify" -s f -d 'Takes the file as raw bytes'
complete -c stmflash -n "__stmflash_in write" -s v -d 'Verifies what was written'
complete -c stmflash -n "__stmflash_in undo" -s v -d 'Reads what it gave back again'
complete -c stmflash -n "__stmflash_in undo" -l to-change -d 'Up to the newest that changed something'
complete -c stmflash -n "__stmflash_in undo" -l recover -d 'Cuts off what a crash of the PC left first'
complete -c stmflash -n "__stmflash_in read" -l hex -d 'Writes Intel HEX'
complete -c stmflash -n "__stmflash_in read" -l skip-blank -d 'Leaves out what is erased'
complete -c stmflash -n "__stmflash_in write" -l keep -d 'Keeps what was written once all is done'
complete -c stmflash -n "__stmflash_in write" -l keep-to -r -F -d 'The same, and renames the journal'
complete -c stmflash -n "__stmflash_in write" -l go -x -d 'Then runs what stands at an address'
complete -c stmflash -n "__stmflash_in write" -l again -x -d 'How often a failed write is done again'
complete -c stmflash -n "__stmflash_in erase" -l all -d 'Every page'
complete -c stmflash -n "__stmflash_in read write verify keep" -F
complete -c stmflash -n "__stmflash_in protect" -l yes -d 'Does not ask before it erases the chip'
complete -c stmflash -n "__stmflash_in protect" -l in-session -d 'Also where a write or an undo was stopped'
complete -c stmflash -n "__stmflash_in keep" -l last -x -d 'How many of the newest can still be undone'
complete -c stmflash -n "__stmflash_in protect" -a 'write-unprotect readout-protect readout-unprotect'
complete -c stmflash -n "__stmflash_in sim" -l id -x -d "The chip's id"
complete -c stmflash -n "__stmflash_in sim" -l flash -r -F -d 'The file that holds the flash'
complete -c stmflash -n "__stmflash_in sim" -l unique -x -d 'The unique id that it gets'
complete -c stmflash -n "__stmflash_in sim" -l size -x -d 'How many KiB of flash it gets'
complete -c stmflash -n "__stmflash_in sim" -l protected -x -d 'Pages that are write-protected, as 4-7'
complete -c stmflash -n "__stmflash_in sim" -l readout-protection -d 'Lets Readout Protect take effect'
complete -c stmflash -n "__stmflash_in sim" -l socket -r -F -d 'The socket that is made'
complete -c stmflash -n "__stmflash_in sim" -l clients -x -d 'How many clients are served'
complete -c stmflash -n "__stmflash_in sim" -l mode -x -a '600 660 666' -d "The socket's permissions"
