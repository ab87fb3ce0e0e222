program bisect(input, output);
{ Reads a number and finds the first square that is no less, by halving. }
const size = 64;
var
  squares: array[1..size] of integer;
  wanted, i, place: integer;

function first_from(key: integer): integer;
var low, high, middle: integer;
begin
  low := 1;
  high := size;
  while low < high do begin
    middle := (low + high) div 2;
    if squares[middle] < key then low := middle + 1
    else high := middle
  end;
  first_from := low
end;

begin
  for i := 1 to size do squares[i] := sqr(i);
  read(wanted);
  place := first_from(wanted);
  {% place >= 1 %} {% place <= size %}
  writeln(squares[place])
end.
