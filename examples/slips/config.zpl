-- A config is declared by two words, `config var`.
-- Refused:
--   refused: Syntax, line 6, byte 208
-- Hint: configs are declared with two words: `config var n : integer = 4;`
program config_alone;
config n : integer = 4;
procedure config_alone();
begin
  writeln(n);
end;
