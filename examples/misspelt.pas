program misspelt(output);
var total: integer;
begin
  total := 1;
  writeln(totl)
end.
