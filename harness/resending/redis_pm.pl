use strict;
use warnings;
use Redis;

my ($port, undef, $form) = @ARGV;
my $client = Redis->new(server => "127.0.0.1:$port");
my @lines = map { [split] } <STDIN>;

sub show {
    my ($ask) = @_;
    my $reply = eval { $ask->() };
    my $text = $@ ? "dies $@" : 'gave ' . ($reply // 'nothing');
    print $text =~ s/\n.*//sr, "\n";
}

if ($form eq 'each') {
    for my $line (@lines) { show(sub { $client->__std_cmd(@$line) }) }
} else {
    show(sub {
        my @replies;
        for my $line (@lines) { $client->__std_cmd(@$line, sub { push @replies, $_[1] // $_[0] }) }
        $client->wait_all_responses;
        "@replies";
    });
}
