%define lr.type canonical-lr
%define api.value.type {struct node *}
%token STRING NUMBER TRUE FALSE NULL_ LBRACE RBRACE LBRACKET RBRACKET COLON COMMA
%code requires {
#include "tree.h"
}
%{
int yylex(void);
static void yyerror(const char *message) { (void)message; }
#define YYMAXDEPTH 100000000
%}
%%
File: Value                      { root = $1; }
Value: STRING                    { $$ = branch("Value", 1, $1); }
     | NUMBER                    { $$ = branch("Value", 1, $1); }
     | TRUE                      { $$ = branch("Value", 1, $1); }
     | FALSE                     { $$ = branch("Value", 1, $1); }
     | NULL_                     { $$ = branch("Value", 1, $1); }
     | Object                    { $$ = branch("Value", 1, $1); }
     | Array                     { $$ = branch("Value", 1, $1); }
Object: LBRACE RBRACE            { $$ = branch("Object", 2, $1, $2); }
      | LBRACE Members RBRACE    { $$ = branch("Object", 3, $1, $2, $3); }
Members: Member                  { $$ = branch("Members", 1, $1); }
       | Members COMMA Member    { $$ = branch("Members", 3, $1, $2, $3); }
Member: STRING COLON Value       { $$ = branch("Member", 3, $1, $2, $3); }
Array: LBRACKET RBRACKET         { $$ = branch("Array", 2, $1, $2); }
     | LBRACKET Elements RBRACKET { $$ = branch("Array", 3, $1, $2, $3); }
Elements: Value                  { $$ = branch("Elements", 1, $1); }
        | Elements COMMA Value   { $$ = branch("Elements", 3, $1, $2, $3); }
%%
#include "lex.yy.c"
#include "main.h"
