# The calls of tools/http_clients.py by Perl's LWP.
#
# usage: perl plain.pl BASE GATE GOOD BAD
use strict;
use warnings;
use LWP::UserAgent;

my ($base, $gate, @files) = @ARGV;
my $agent = LWP::UserAgent->new(keep_alive => 1, timeout => 60);

sub posted {
    my ($path, $bearer, $body) = @_;
    my $answer = $agent->post($base . $path, 'Content-Type' => 'application/x-www-form-urlencoded',
        (defined $bearer ? ('Authorization' => "Bearer $bearer") : ()), Content => $body);
    return ($answer->code, $answer->content);
}

sub form {
    open(my $source, '<', shift) or die;
    local $/;
    return scalar <$source>;
}

my ($status, $given) = posted('/v1/token', undef, form($files[0]));
my ($token) = $given =~ /"access_token":"([^"]*)"/;
print "exchange $status $token\n";
my ($refused, $said) = posted('/v1/token', undef, form($files[1]));
my ($code) = $said =~ /"error_description":"([^"]*)"/;
print "refused $refused $code\n";
for (1, 2) {
    my ($number, $told) = posted('/v1/introspect', $gate, "token=$token");
    print "introspect $number ", ($told =~ /^\{"active":true/ ? 'true' : 'false'), "\n";
}
