program sort(input, output);
{ Reads a count and then so many numbers, and writes them in rising order. }
const most = 100;
var
  a: array[1..most] of integer;
  n, i, j, held: integer;
  placed: Boolean;
begin
  read(n);
  for i := 1 to n do read(a[i]);
  for i := 2 to n do begin
    held := a[i];
    j := i;
    placed := false;
    while not placed do
      if j = 1 then placed := true
      else if a[j - 1] <= held then placed := true
      else begin
        a[j] := a[j - 1];
        j := j - 1
      end;
    a[j] := held
  end;
  for i := 1 to n do write(a[i] : 6);
  writeln
end.
