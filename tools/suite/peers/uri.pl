# Answers of Perl's URI, a line for a line. It rejects nothing. Hosts are asked only of schemes that it knows to have one.
use strict;
use warnings;
use URI;

sub text_of {
    my ($field) = @_;
    $field =~ s/\\x([0-9a-f]{2})/chr hex $1/ge;
    return $field;
}

sub field_of {
    my ($text) = @_;
    return "\\-" if !defined $text;
    utf8::encode($text) if utf8::is_utf8($text);
    $text =~ s/([^\x20-\x7e]|\\)/sprintf "\\x%02x", ord $1/ge;
    return $text;
}

# The components, or nothing if there is an authority without a call for its host.
sub reading {
    my $uri = URI->new($_[0]);
    my $authority = $uri->can("authority") ? $uri->authority : undef;
    return if defined $authority && !$uri->can("host");
    my @place = (undef, undef, undef);
    if (defined $authority) {
        @place = ($uri->userinfo, $authority =~ /^(?:.*@)?(\[.*\]|[^:]*)(?::(.*))?$/s);
    }
    my $path = $uri->can("path") ? $uri->path : $uri->opaque;
    return ($uri->scheme, @place, $path, $uri->can("query") ? $uri->query : undef, $uri->fragment);
}

sub answer_to {
    my ($chapter, @texts) = @_;
    if ($chapter eq "reading") {
        my @parts = reading(@texts);
        return @parts ? "=" . join("\t", map { field_of($_) } @parts) : "?";
    }
    return "=" . field_of(URI->new_abs($texts[1], $texts[0])->as_string) if $chapter eq "resolution";
    return "=" . field_of(URI->new($texts[1])->rel($texts[0])->as_string) if $chapter eq "relative";
    return "=" . (URI::eq($texts[0], $texts[1]) ? "true" : "false") if $chapter eq "equality";
    return "?";
}

$| = 0;
while (my $line = <STDIN>) {
    chomp $line;
    my ($chapter, @fields) = split /\t/, $line, -1;
    my $answer = eval { no warnings; answer_to($chapter, map { text_of($_) } @fields) };
    print defined $answer ? $answer : "!", "\n";
}
