program loop(output);
{ Ten million turns of simple arithmetic: a measure of speed. }
var i, sum: integer;
begin
  sum := 0;
  i := 0;
  while i < 10000000 do begin
    i := i + 1;
    sum := (sum + i) mod 1000003
  end;
  writeln(sum)
end.
