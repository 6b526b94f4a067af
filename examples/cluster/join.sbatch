#!/bin/sh
#SBATCH --job-name=join
#SBATCH --cpus-per-task=2
#SBATCH --mem=2G
# Joins the answers of all parts, and reports which part has none: join.sbatch FOLDER ANSWERS
"$SCALE" join "$1" --csv >"$2.new" && mv "$2.new" "$2" || { rm -f "$2.new"; exit 1; }
