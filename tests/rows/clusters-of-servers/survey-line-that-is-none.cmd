verify --survey survey-line-that-is-none.survey
