# Answers a query of SPARQL from a server of Triple Pattern Fragments by Perl's RDF::LDF and RDF::Query:
#
#     perl examples/ldf.pl URL QUERYFILE
#
# One line a row: the values in the order of their names, as N-Triples has them. RDF::LDF looks on a page for what
# is said of the address by which it asked, in which it writes variables and the datatypes of literals in its
# own way; a page of `tpf serve` names itself without variables (docs/INTEROP.md). So it is made to ask by the
# address that the page will name, and to leave out what the page says of the data set. On Debian 12 it takes
# the package librdf-ldf-perl.
use strict;
use warnings;
use RDF::LDF;
use RDF::Query;
use RDF::Trine qw(iri);
use RDF::Trine::Store::LDF;

RDF::LDF::around(get_model_and_info => sub {
    my ($read, $self, $address) = @_;
    my ($path, $parameters) = split /\?/, $address, 2;
    my @bound = grep { !/^\w+=(%3F|$)/ } split /&/, $parameters // '';
    s/%22%5E%5E%3C(.*)%3E$/%22%5E%5E$1/ for @bound;
    my $page = $self->$read(join '?', $path, join('&', @bound) || ());
    my $forms = $page->{model}->get_statements(undef, iri('http://www.w3.org/ns/hydra/core#search'), undef);
    $page->{model}->remove_statements($_->subject, undef, undef) for $forms->get_all;
    return $page;
});

my ($address, $file) = @ARGV;
open my $text, '<:encoding(UTF-8)', $file or die "$file: $!\n";
my $query = RDF::Query->new(join '', <$text>) or die RDF::Query->error, "\n";
my $store = RDF::Trine::Store::LDF->new(url => $address) or die "$address is no server of Triple Pattern Fragments\n";
my $rows = $query->execute(RDF::Trine::Model->new($store));
binmode STDOUT, ':encoding(UTF-8)';
while (my $row = $rows->next) {
    print join(' ', map { $row->{$_}->as_ntriples } sort keys %$row), "\n";
}
