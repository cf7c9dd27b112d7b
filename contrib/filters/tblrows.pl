#!/usr/bin/perl
# For: a filter in the place of tbl(1): each table becomes rows of text between .nf and .fi, and all else passes.
# Needs: Perl, and no module but strict and warnings.
# Use: tblrows.pl [-w COLUMNS] < PAGE | mandoc, where a table may be so wide (70 with no word)
use strict;
use warnings;

my $WIDTH = 70;
my $GAP = 3;              # columns between two cells
my $LEAST = 8;            # columns that a cell of text has at least

# An escape of roff, and the letters of those that print nothing.
my $ESCAPE = qr/\\(?:f(?:\(..|\[[^]\\]*\]|.)|\[[^]\\]*\]|\(..|\*\(..|\*\[[^]\\]*\]|\*.|s[-+]?\d|[hvm]'[^']*'|m\[[^]\\]*\]|.)/;
my $SILENT = qr/^\\[fshvm&|^%\/,:c]/;

# A word: a blank after a backslash is part of it.
my $WORD = qr/(?:[^\s\\]++|\\.?)++/;

# Macros of fonts with the fonts of their words in turn, macros with words, and other macros and requests: any other line of a table is a row.
my %FONTS = map { $_ => [split //] } qw(B I R BI BR IB IR RB RI);
@FONTS{qw(SB SM)} = (['B'], ['R']);
my %WORDS = map { $_ => 1 } qw(
    Ad An Ao Aq Ar At Bo Bq Bro Brq Bsx Bx Cd Cm D1 Dl Do Dq Dv Dx Em En Eo Er Es Ev Fa Fd Fl Fn Fo Fr Ft Fx Ic In Lb Li Lk Ms Mt Nd Nm No
    Nx Oo Op Ot Ox Pa Pf Po Pq Ql Qo Qq So Sq St Sx Sy Tn Ux Va Vt Xr nop
    MR MT ME UR UE
);
my %REQUESTS = map { $_ => 1 } qw(
    TH SH SS TP TQ LP PP P IP HP RS RE EX EE SY YS OP DT PD AT UC TS TE EQ EN PS PE
    Ac Ap Bc Bd Bf Bk Bl Brc Bt Db Dc Dd Dt Ec Ed Ef Ek El Ex Fc Hf It Lp Ns Oc Os Pc Pp Qc Re Rs Rv Sc Sh Sm Ss Ta Tg Ud Xc Xo
    ad af am am1 as as1 bp br c2 cc ce cflags ch cs cu da de de1 di ds ds1 dt ec el em eo ev ex fc fi fp fspecial ft ftr hc hcode hla hw hy
    ie if ig in it lc lf lg ll ls lt mc mk na ne nf nh nm nn nr ns nx os pc pi pl pm pn po ps rd rj rm rn rr rs rt so sp ss sv ta tc ti tl
    tm tr uf ul vs warn wh while color cp do fam fcolor gcolor mso nroff shift tkf trf troff
);

# The line at which a table ends.
my $END = qr/^\.[ \t]*TE\b/;

sub largest {
    my $most = shift;
    for (@_) { $most = $_ if $_ > $most }
    return $most;
}

sub trimmed {
    my ($text) = @_;
    return $text =~ /^\s*(.*\S)/s ? $1 : '';
}

# How many columns a text has.
sub columns {
    my ($text) = @_;
    $text =~ s/($ESCAPE)/$1 =~ $SILENT ? '' : 'x'/ge;
    $text =~ s/[\x80-\xBF]//g;    # all bytes of a character but its first
    return length $text;
}

# The words of a macro's line, as roff parts them: a backslash and the next character are a pair, and a comment ends the line.
sub arguments {
    my ($rest) = @_;
    my @words;
    while ($rest =~ /\G *(?:"([^"\\]*+(?:(?:""|\\(?!["#]).?)[^"\\]*+)*+)"?|((?:[^ \\]++|\\(?!["#]).?)++))/gs) {
        my ($quoted, $bare) = ($1, $2);
        $quoted =~ s/""/"/g if defined $quoted;
        push @words, $quoted // $bare;
    }
    return @words;
}

# The text of a line of a table: that of a macro of fonts or links with escapes in its place, of a row the line itself, and none of another request.
sub text_of_line {
    my ($line) = @_;
    return $line if $line !~ /^[.'][ \t]*([^ \t\\]*)[ \t]*(.*)/s;
    my ($name, @words) = ($1, arguments($2));
    my $fonts = $FONTS{$name};
    return undef if $name eq '' || $REQUESTS{$name} || !@words && ($fonts || $WORDS{$name});
    return "\\f$$fonts[0]@words\\fR" if $fonts && @$fonts == 1;
    my $count = 0;
    return join('', map { "\\f$$fonts[$count++ % 2]$_" } @words) . '\\fR' if $fonts;
    return "\\fI$words[0]\\fR" . (@words > 1 ? "($words[1])" : '') . join '', @words[2 .. $#words] if $name =~ /^(?:MR|Xr)$/;
    return "<$words[0]>" if $name =~ /^(?:UR|MT)$/;
    return $WORDS{$name} ? "@words" : $line;
}

# The lines of a cell of text as one text.
sub text_of_lines {
    return join "\n", grep { defined } map { text_of_line($_) } @_;
}

# A text as rows of so many columns. A font goes on in the next row, and ends in each.
sub wrapped {
    my ($text, $width) = @_;
    my (@rows, @row);
    my $used = 0;
    for my $word ($text =~ /($WORD)/g) {
        my $count = columns($word);
        if (@row && $used + 1 + $count > $width) {
            push @rows, "@row";
            @row = ();
            $used = 0;
        }
        $used += $count + (@row ? 1 : 0);
        push @row, $word;
    }
    my $font = '';
    my @whole;
    for my $row (@rows, "@row") {
        my $begun = $font . $row;
        $font = $1 =~ /^[RP1]/ ? '' : "\\f$1" while $row =~ /\\f(\(..|\[[^]\\]*\]|.)/g;
        push @whole, $begun . ($font ? '\\fR' : '');
    }
    return @whole;
}

# The columns of each row of a format, up to its full stop: the kind of a cell, as l, r or s, and its font.
sub formats {
    my ($text) = @_;
    $text =~ s/\s*\.\s*$//;
    my @rows;
    for my $part (split /[\n,]/, $text) {
        my @row;
        while ($part =~ /([lrcnas^])((?:[bixezudt]|f(?:\(..|\[[^][]*\]|[birp])|w(?:\([^()]*\)|\d+)|[pvm]-?\d+|\d+|\s)*)|[|_=-]/gi) {
            next unless defined $1;
            my ($kind, $options) = (lc $1, $2 // '');
            push @row, { kind => $kind, font => $options =~ /b/i ? 'B' : $options =~ /i/i ? 'I' : '' };
        }
        push @rows, \@row if @row;
    }
    return @rows;
}

# Takes the lines of a format.
sub take_formats {
    my ($lines) = @_;
    my $text = '';
    while (@$lines) {
        my $line = shift @$lines;
        $text .= "$line\n";
        last if $line =~ /\.\s*$/;
    }
    return formats($text);
}

# The cells of a row, each a text and whether it is filled: the row's first line, and the lines of its cells between T{ and T}, which are taken.
sub take_cells {
    my ($line, $tab, $lines) = @_;
    my @rest = split /\Q$tab\E/, $line, -1;
    my @cells;
    while (@rest) {
        my $cell = shift @rest;
        if ($cell =~ /^\s*T\{\s*$/) {
            my @body;
            push @body, shift @$lines while @$lines && $lines->[0] !~ /^T\}/;
            push @cells, [text_of_lines(@body), 1];
            (undef, @rest) = split /\Q$tab\E/, @$lines ? shift @$lines : '', -1;
        } else {
            push @cells, [trimmed($cell), 0];
        }
    }
    return @cells;
}

# The rows of a table, each with its cells and their formats; a row that is blank has none, and that of a macro has its text besides.
sub rows_of {
    my @lines = @_;
    my $tab = "\t";
    $tab = $1 if @lines && $lines[0] =~ /;\s*$/ && shift(@lines) =~ /tab *\((.)\)/;
    my @formats = take_formats(\@lines);
    my (@rows, $count);
    while (@lines) {
        my $line = shift @lines;
        my $text = text_of_line($line);
        if ($line =~ /^\.T&/) {
            @formats = take_formats(\@lines);
            $count = 0;
        } elsif (!defined $text) {
            push @rows, [[], []] if $line =~ /^\.[ \t]*sp\b/;
        } elsif ($text ne $line) {
            push @rows, [[], [], $text];
        } elsif ($line !~ /^\s*\\?[_=]\s*$/) {
            my @cells = take_cells($line, $tab, \@lines);
            my $place = largest(0, $#formats) < ($count //= 0) ? $#formats : $count;
            push @rows, [\@cells, $formats[$place] // []];
            $count++;
        }
    }
    return @rows;
}

# How wide each column of a table is, at most as a whole row. A column of text gets what the others leave, the narrowest first.
sub widths_of {
    my @rows = @_;
    my $count = largest(1, map { scalar @{$_->[0]} } @rows);
    my @wide = my @is_text = my @wanted = (0) x $count;
    for (@rows) {
        my ($cells, $formats) = @$_;
        for my $j (0 .. $#$cells) {
            my ($text, $is_filled) = @{$cells->[$j]};
            my ($kind, $next) = map { $_ ? $_->{kind} : 'l' } @$formats[$j, $j + 1];
            if ($is_filled) {
                $is_text[$j] = 1;
                $wide[$j] = largest($wide[$j], map { columns($_) } $text =~ /($WORD)/g);
                $wanted[$j] = largest($wanted[$j], columns(join ' ', split ' ', $text));
            } elsif ($kind ne 's' && $next ne 's') {
                $wide[$j] = largest($wide[$j], columns($text));
            }
        }
    }
    my $free = $WIDTH - $GAP * ($count - 1);
    $free -= $wide[$_] for grep { !$is_text[$_] } 0 .. $count - 1;
    my @texts = sort { $wanted[$a] <=> $wanted[$b] } grep { $is_text[$_] } 0 .. $count - 1;
    while (@texts) {
        my $share = largest($LEAST, int($free / @texts));
        my $j = shift @texts;
        $wide[$j] = largest($wide[$j], $wanted[$j] < $share ? $wanted[$j] : $share);
        $free -= $wide[$j];
    }
    return map { $_ < $WIDTH ? $_ : $WIDTH } @wide;
}

# A text in a cell of so many columns.
sub padded {
    my ($text, $kind, $width) = @_;
    my $free = largest(0, $width - columns($text));
    return ' ' x $free . $text if $kind =~ /[rn]/;
    return ' ' x int($free / 2) . $text . ' ' x ($free - int($free / 2)) if $kind eq 'c';
    return $text . ' ' x $free;
}

# The lines of a row of cells.
sub lines_of {
    my ($wide, $cells, $formats, $macro) = @_;
    return wrapped($macro, $WIDTH) if defined $macro;
    return '' unless @$cells;
    my @parts;
    for my $j (0 .. $#$cells) {
        my ($text, $is_filled) = @{$cells->[$j]};
        my $format = $formats->[$j] // { kind => 'l', font => '' };
        my @texts = $is_filled ? wrapped($text, $$wide[$j]) : ($text);
        @texts = map { length $_ ? "\\f$format->{font}$_\\fR" : $_ } @texts if $format->{font};
        push @parts, [@$cells > 1 ? $format->{kind} : 'l', @texts];
    }
    my @lines;
    for my $y (1 .. largest(map { $#$_ } @parts)) {
        my $line = join ' ' x $GAP, map { padded($parts[$_][$y] // '', $parts[$_][0], $$wide[$_]) } 0 .. $#parts;
        ($line) = $line =~ /^(.*[^ ]|)/s;
        push @lines, $line;
    }
    return @lines;
}

# The lines that a table becomes.
sub table {
    my @rows = rows_of(@_);
    my @wide = widths_of(@rows);
    return ('.nf', (map { /^[.']/ ? "\\&$_" : $_ } map { lines_of(\@wide, @$_) } @rows), '.fi');
}

sub main {
    if (@ARGV) {
        die "tblrows.pl: usage: tblrows.pl [-w COLUMNS] < PAGE\n" unless @ARGV == 2 && $ARGV[0] eq '-w' && $ARGV[1] =~ /^\d+$/;
        $WIDTH = $ARGV[1];
    }
    my @lines = split /\n/, do { local $/; <STDIN> } // '', -1;
    my $last = largest(-1, grep { $lines[$_] =~ $END } 0 .. $#lines);
    $REQUESTS{$_} = 1 for map { /^[.'][ \t]*(?:(?:de|am)1?|als)[ \t]+([^ \t\\]+)/ } @lines;    # macros of the page
    my @out;
    for (my $at = 0; $at < @lines; $at++) {
        if ($at < $last && $lines[$at] =~ /^\.[ \t]*TS\b/) {
            my $begin = ++$at;
            $at++ until $lines[$at] =~ $END;
            push @out, table(@lines[$begin .. $at - 1]);
        } else {
            push @out, $lines[$at];
        }
    }
    print join "\n", @out;
}

main();
