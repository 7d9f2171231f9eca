# Completion of flowlabel and of the commands flowlabel-NAME for fish. `make install` copies it to where fish finds it,
# for each command.

# The labels of the map or the list that is on the line.
function __flowlabel_labels
    set -l words (commandline -op)
    set words[1] (string replace -r -- '-many$' '' $words[1])
    for number in (seq (count $words))
        switch $words[$number]
            case --pmap --list
                set -l file (string replace -r '^~/' "$HOME/" -- $words[(math $number + 1)])
                $words[1] cat $words[$number] $file 2>/dev/null | sed 1d | cut -d '|' -f 3- | sort -u
            case '--pmap=*' '--list=*'
                $words[1] cat $words[$number] 2>/dev/null | sed 1d | cut -d '|' -f 3- | sort -u
        end
    end
end

# The fields that the word of `--fields` doesn't have yet, after those that it has.
function __flowlabel_fields
    set -l begun (commandline -tc | string replace -r '^--fields=' '' | string replace -r '[^,]*$' '')
    for field in sip dip sport dport proto flags src-label dst-label $argv
        contains -- $field (string split , -- $begun); or echo $begun$field
    end
end

set -l commands label info rows uniq cat shrink check recert
set -l of __fish_seen_subcommand_from

complete -c flowlabel -n "not $of $commands" -f
complete -c flowlabel -s h -l help -d 'Print help'
complete -c flowlabel -n "not $of $commands" -s V -l version -d 'Print the version'
complete -c flowlabel -n "not $of $commands" -a label -d 'Print the label of an address'
complete -c flowlabel -n "not $of $commands" -a info -d 'Print the counts of an IPFIX File'
complete -c flowlabel -n "not $of $commands" -a rows -d 'Print the flows of an IPFIX File'
complete -c flowlabel -n "not $of $commands" -a uniq -d 'Print the sums of the flows of an IPFIX File'
complete -c flowlabel -n "not $of $commands" -a cat -d 'Print the ranges of a map or a list'
complete -c flowlabel -n "not $of $commands" -a shrink -d "Print a shortest prefix list of a map"
complete -c flowlabel -n "not $of $commands" -a check -d 'Verify that a list is minimal'
complete -c flowlabel -n "not $of $commands" -a recert -d 'Print a certificate in compact form'

complete -c flowlabel -n "$of label rows uniq cat shrink check" -l pmap -r -F -d 'The prefix map'
complete -c flowlabel -n "$of label rows uniq cat check" -l list -r -F -d 'The prefix list'
complete -c flowlabel -n "$of check recert" -l cert -r -F -d 'The certificate'
complete -c flowlabel -n "$of shrink" -l certificate -d 'Print the certificate instead of the list'
complete -c flowlabel -n "$of shrink" -l compact -d 'Print the certificate in compact form'

complete -c flowlabel -n "$of rows uniq" -l protocol -x -d 'Flows of these protocols, such as 6,17 or 1-16'
complete -c flowlabel -n "$of rows uniq" -l sport -x -d 'Flows from these ports'
complete -c flowlabel -n "$of rows uniq" -l dport -x -d 'Flows to these ports'
complete -c flowlabel -n "$of rows uniq" -l saddress -x -d 'Flows from these addresses'
complete -c flowlabel -n "$of rows uniq" -l daddress -x -d 'Flows to these addresses'
complete -c flowlabel -n "$of rows uniq" -l packets -x -d 'Flows with this many packets, such as 5, 5- or 5-9'
complete -c flowlabel -n "$of rows uniq" -l bytes -x -d 'Flows with this many bytes'
complete -c flowlabel -n "$of rows uniq" -l src-label -x -d 'Flows whose source has this label' \
    -a '(__flowlabel_labels)'
complete -c flowlabel -n "$of rows uniq" -l dst-label -x -d 'Flows whose destination has this label' \
    -a '(__flowlabel_labels)'
complete -c flowlabel -n "$of rows uniq" -l any-label -x -d 'Flows whose source or destination has this label' \
    -a '(__flowlabel_labels)'
complete -c flowlabel -n "$of rows uniq" -l columns -d 'Pad the fields to columns'

complete -c flowlabel -n "$of uniq" -l sort-output -d 'Print the sums in the order of their keys'
complete -c flowlabel -n "$of uniq" -l fields -x -d 'The fields to sum by' \
    -a '(__flowlabel_fields)'

# Those of flowlabel-many.
set -l commands sum messages

complete -c flowlabel-many -n "not $of $commands" -f
complete -c flowlabel-many -s h -l help -d 'Print help'
complete -c flowlabel-many -n "not $of $commands" -s V -l version -d 'Print the version'
complete -c flowlabel-many -n "not $of $commands" -a sum -d 'Print the sums of the flows of IPFIX Files'
complete -c flowlabel-many -n "not $of $commands" -a messages -d 'Print what each message of IPFIX Files has'

complete -c flowlabel-many -n "$of sum" -l by -x -d 'The unit of time to sum by' -a 'day hour minute 15m 5m'
complete -c flowlabel-many -n "$of sum" -l fields -x -d 'The fields to sum by' \
    -a '(__flowlabel_fields in-if out-if vlan src-as dst-as)'
complete -c flowlabel-many -n "$of sum" -l pmap -r -F -d 'The prefix map'
complete -c flowlabel-many -n "$of sum" -l list -r -F -d 'The prefix list'
complete -c flowlabel-many -n "$of sum" -l allow-skipped -d 'Take Files with data sets that have no template'

complete -c flowlabel-many -n "$of sum" -l protocol -x -d 'Flows of these protocols, such as 6,17 or 1-16'
complete -c flowlabel-many -n "$of sum" -l sport -x -d 'Flows from these ports'
complete -c flowlabel-many -n "$of sum" -l dport -x -d 'Flows to these ports'
complete -c flowlabel-many -n "$of sum" -l saddress -x -d 'Flows from these addresses'
complete -c flowlabel-many -n "$of sum" -l daddress -x -d 'Flows to these addresses'
complete -c flowlabel-many -n "$of sum" -l packets -x -d 'Flows with this many packets, such as 5, 5- or 5-9'
complete -c flowlabel-many -n "$of sum" -l bytes -x -d 'Flows with this many bytes'
complete -c flowlabel-many -n "$of sum" -l src-label -x -d 'Flows whose source has this label' \
    -a '(__flowlabel_labels)'
complete -c flowlabel-many -n "$of sum" -l dst-label -x -d 'Flows whose destination has this label' \
    -a '(__flowlabel_labels)'
complete -c flowlabel-many -n "$of sum" -l any-label -x -d 'Flows whose source or destination has this label' \
    -a '(__flowlabel_labels)'
complete -c flowlabel-many -n "$of sum" -l in-if -x -d 'Flows that came in by these interfaces'
complete -c flowlabel-many -n "$of sum" -l out-if -x -d 'Flows that went out by these interfaces'
complete -c flowlabel-many -n "$of sum" -l vlan -x -d 'Flows of these VLANs'
complete -c flowlabel-many -n "$of sum" -l src-as -x -d 'Flows from these AS numbers'
complete -c flowlabel-many -n "$of sum" -l dst-as -x -d 'Flows to these AS numbers'
complete -c flowlabel-many -n "$of sum" -l columns -d 'Pad the fields to columns'

# The options that a command's help lists, at the beginnings of lines.
function __flowlabel_options
    set -l words (commandline -op)
    $words[1] --help 2>/dev/null | string match -r '^  -.*' | string replace -r '(?<=\S)  .*' '' |
        string match -ra '(?<=^  |, )--?[a-z0-9][a-z0-9-]*' | sort -u
end

for name in audit bill capture country customers fib lint lookup nfcapd record report table verify
    complete -c flowlabel-$name -n "string match -q -- '-*' (commandline -ct)" -a '(__flowlabel_options)'
end
