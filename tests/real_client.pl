# Asks a cluster through the client of Debian's package libsearch-elasticsearch-perl, and prints what that client saw, as JSON.
#
#     perl tests/real_client.pl URL
#
# It is no test itself: recorded_real_client.py runs it.

use strict;
use warnings;
use JSON::PP;
use Search::Elasticsearch;

my $client = Search::Elasticsearch->new(nodes => $ARGV[0], max_retries => 5, cxn_pool => 'Static');

sub tried {
    my ($turn) = @_;
    my $seen = eval { $turn->() };
    return $seen unless $@;
    return ref $@ && $@->can('is') ? ($@->is('Conflict') ? 'Conflict' : $@->is('Missing') ? 'Missing' : $@->type) : "$@";
}

my @turns = (
    sub { $client->index(index => 'carts', id => 'd', body => { count => 1 })->{result} },
    sub { $client->get(index => 'carts', id => 'd')->{_source}{count} },
    sub { $client->create(index => 'carts', id => 'd', body => { count => 2 })->{result} },
    sub {
        my $read = $client->get(index => 'carts', id => 'd');
        my %pair = (if_seq_no => $read->{_seq_no}, if_primary_term => $read->{_primary_term});
        $client->index(index => 'carts', id => 'd', body => { count => 3 }, %pair);
        return $client->index(index => 'carts', id => 'd', body => { count => 4 }, %pair)->{result};
    },
    sub {
        my @body = map { ({ index => { _index => 'carts', _id => "b$_" } }, { count => $_ }) } 0 .. 2;
        my $told = $client->bulk(body => [@body, { delete => { _index => 'carts', _id => 'b0' } }]);
        return [map { (values %$_)[0]{result} } @{ $told->{items} }];
    },
    sub {
        my $told = $client->mget(index => 'carts', body => { ids => ['d', 'b1', 'b0'] });
        return [map { $_->{found} ? JSON::PP::true : JSON::PP::false } @{ $told->{docs} }];
    },
    sub { $client->delete(index => 'carts', id => 'd')->{result} },
    sub { $client->get(index => 'carts', id => 'd')->{found} },
);

print JSON::PP->new->encode([map { tried($_) } @turns]), "\n";
